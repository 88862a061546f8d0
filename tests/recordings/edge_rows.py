"""Recordings at the edges of the rules of their forms, spelled out, and the list that says the
same. Comments say where tshark 4.0.17 takes them otherwise."""
from __future__ import annotations

from recorded import LATEST, SECTION
from recorded_arrivals import Options
from recording_rows import FCS, FIRST_NS, H1, IL, LENGTHS, ONE, PL, SL, US, ZERO
from recording_rows import E, F1, G1, R, Row

ARRIVAL = f"F 0 A 1 {H1}"
CLOSED = H1 + FCS
RAW = f"R 0 A 1 {CLOSED}"
DAMAGED = "Damaged 0"
UNCLEAR = "FcsUnclear 1"


def edge(
    name: str, data: str, listed: str = "", fault: str = "", options: Options = Options()
) -> Row:
    """A row of which the list and the fault are reported; one of `police` where a port is given."""
    rule = "" if options.port is None else "1 64 500"
    return Row(name, data, "..", fault, options, listed=listed, rule=rule)


def low(number: int, size: int = 4) -> str:
    """A number, low byte first."""
    return (number % 256**size).to_bytes(size, "little").hex()


def block(kind: int, body: str = "") -> str:
    """A block of pcapng, low byte first."""
    size = low(len(bytes.fromhex(body)) + 12)
    return low(kind) + size + body + size


def option(code: int, value: str) -> str:
    """An option, filled up."""
    size = len(bytes.fromhex(value))
    return low(code, 2) + low(size, 2) + value + "00" * (-size % 4)


def interface(options: str = "", snap: str = "00000400") -> str:
    """An Ethernet interface."""
    return block(1, ONE + snap + options)


def packet(
    options: str = "", frame: str = H1, ticks: int = FIRST_NS // 1000, place: int = 0
) -> str:
    """An enhanced packet, in us where its interface says nothing else."""
    size = len(bytes.fromhex(frame))
    head = low(place) + low(ticks >> 32) + low(ticks) + low(size) * 2
    return block(6, head + frame + "00" * (-size % 4) + options)


def word(said: str) -> str:
    """PL with another word at its end, and a sealed frame."""
    return PL[:-8] + said + R(ZERO, CLOSED, "40000000 40000000")


def pcap_rows() -> list[Row]:
    """Of pcap."""
    long, longer = H1 + "00" * 1940, H1 + "00" * 1941
    most, over = (R(ZERO, "", f"{low(size)} {ZERO}") for size in (262_144, 262_145))
    ns = "4d3cb2a1" + PL[8:]
    return [
        edge("pcap: 4 bytes", PL[:8], fault="Ended 0"),
        edge("pcap: 23 bytes of another version", PL.replace("400 ", "300 ")[:-2], fault="Ended 0"),
        edge("pcap: a piece of a head", F1 + "00" * 15, ARRIVAL, "Ended 1"),
        edge("pcap: too many bytes", PL + over, fault=DAMAGED),
        edge("pcap: as many as may be", PL + most, fault="Ended 0"),
        # tshark refuses the bit
        edge("pcap: a reserved bit", word("01000100"), fault="NotEthernet 1"),
        edge("pcap: a bit above", word("01000008"), fault=UNCLEAR),
        edge("pcap: a length that isn't said", word("01000020"), fault=UNCLEAR),
        edge("pcap: 2 bytes of check sequence", word("01000014"), fault=UNCLEAR),
        edge("pcap: no bytes of it", word("01000004"), f"F 0 A 1 {CLOSED}"),
        edge("pcap: 4 bytes of it", word("01000024"), RAW),
        # tshark takes it
        edge("pcap: ns that are a second", ns + R("00ca9a3b", H1), fault="BadTime 1"),
        edge("pcap: a ns less", ns + R("ffc99a3b", H1), ARRIVAL),
        edge("pcap: the last second", PL + R(ZERO, H1, seconds="ffffffff"), ARRIVAL),
        edge("2,000 bytes", PL + R(ZERO, long, low(2000) * 2), f"F 0 A 1 {long}"),
        edge("2,001 bytes", PL + R(ZERO, longer, low(2001) * 2), f"R 0 A 1 {long}"),
        edge("more bytes than on the wire", PL + R(ZERO, H1, "3c000000 28000000"), ARRIVAL),
    ]


def length_rows() -> list[Row]:
    """Lengths of blocks."""
    begin, huge = SL + IL, low(16_777_220)
    return [
        edge("a piece of a block", begin + "00" * 11, fault="Ended 0"),
        edge("a block of 8 bytes", begin + "99000000 08000000 08000000", fault=DAMAGED),
        # tshark takes lengths that are no multiple of 4
        edge("a block of 14", f"{begin} 99000000 0e000000 0000 0e000000 {ZERO}", fault=DAMAGED),
        edge("a large packet", f"{begin} 06000000 {huge} {ZERO}", fault=DAMAGED),
        edge("a large block of no one", f"{begin} 99000000 {huge} {ZERO}", fault="Ended 0"),
        edge("an interface of 16 bytes", SL + block(1, ONE), fault=DAMAGED),
        edge("statistics of 20 bytes", begin + block(5, ZERO * 2), fault=DAMAGED),
        edge("a packet of 28 bytes", begin + block(6, ZERO * 4), fault=DAMAGED),
        edge("an old packet of 28 bytes", begin + block(2, ZERO * 4), fault=DAMAGED),
        edge("a simple packet of 12 bytes", begin + block(3), fault=DAMAGED),
        edge("the end within a passed block", G1 + "99000000 10000000 0000", ARRIVAL, "Ended 1"),
        edge("a section of 24 bytes", block(SECTION, "4d3c2b1a" + ZERO * 2), fault=DAMAGED),
        edge("a packet over its block", begin + block(6, ZERO * 3 + low(61) * 2 + H1), "", DAMAGED),
    ]


def block_rows() -> list[Row]:
    """Blocks of all types, and sections."""
    begin, after = SL + IL, f"# no-frame 1 / {ARRIVAL}"
    one, section = E(US, H1), SL.replace("0a0d0d0a", low(SECTION))
    return [
        # tshark refuses the first two, and numbers the third
        edge("a custom block of 12 bytes", begin + block(0x0BAD) + one, after),
        edge("a journal of 12 bytes", begin + block(9) + one, after),
        edge("an event of sysdig", begin + block(0x204, "00" * 24) + one, ARRIVAL),
        edge("a custom block alone", SL + block(0x4000_0BAD, ONE), "# no-frame 1", "NoArrival 1"),
        # tshark looks at these options
        edge("a section with damaged options", section_with("0400ffff") + IL + one, ARRIVAL),
        edge("names with damaged options", begin + block(4, "0000ffff 0400ffff") + one, ARRIVAL),
        edge("a section in no order", section.replace("4d3c2b1a", "4d3c2b00"), fault=DAMAGED),
        edge("a piece of another section", G1 + SL.replace(" ", "")[:22], ARRIVAL, "Ended 1"),
        edge("version 1.2", SL.replace(ONE, "01000200") + IL + one, ARRIVAL),
        edge("version 1.1", G1 + SL.replace(ONE, "01000100"), ARRIVAL, "BadVersion 1"),
        edge("version 2.0", SL.replace(ONE, "02000000"), fault="BadVersion 0"),
        edge("version 2.0 that ends", SL.replace(ONE, "02000000")[:-2], fault="Ended 0"),
        edge("version 2.0, two lengths", SL.replace(ONE, "02000000")[:-2] + "01", fault=DAMAGED),
    ]


def section_with(options: str) -> str:
    """A section with options."""
    return block(SECTION, f"4d3c2b1a {ONE} ffffffff ffffffff {options}")


def described_rows() -> list[Row]:
    """What is of an interface, and is there such a one?"""
    one = E(US, H1)
    return [
        edge("4,096 interfaces", SL + 4096 * IL + packet(place=4095), ARRIVAL),
        edge("4,097 interfaces", SL + 4097 * IL, fault=DAMAGED),
        edge("4,096 and 1 of two sections", SL + 4096 * IL + SL + IL + one, ARRIVAL),
        edge("a packet of no interface", SL + IL + packet(place=1), fault=DAMAGED),
        edge("an interface of the section before", SL + IL + SL + one, fault=DAMAGED),
        edge("a simple packet of no interface", SL + block(3, ZERO), fault=DAMAGED),
    ]


def option_rows() -> list[Row]:
    """Options of interfaces."""
    one, unit = E(US, H1), option(9, "06")
    endless = low(2, 2) + low(5, 2) + ZERO
    return [
        edge("an option over the end", SL + interface(endless) + one, fault=DAMAGED),
        # tshark takes other lengths of values
        edge("2 bytes of unit", SL + interface(option(9, "0606")) + one, fault=DAMAGED),
        edge("no byte of unit", SL + interface(option(9, "")) + one, fault=DAMAGED),
        edge("2 bytes of length", SL + interface(option(13, "0400")) + one, fault=DAMAGED),
        edge("4 bytes of offset", SL + interface(option(14, ZERO)) + one, fault=DAMAGED),
        edge("the first of two units", SL + interface(unit + option(9, "0909")) + one, ARRIVAL),
        edge("a unit behind the end", SL + interface(ZERO + option(9, "09")) + one, ARRIVAL),
        # tshark refuses it
        edge("an end with a length", SL + interface("00000900") + one, ARRIVAL),
        edge("a unit behind another option", SL + interface(option(2, "65") + unit) + one, ARRIVAL),
    ]


def packet_rows() -> list[Row]:
    """Flags of packets, and packets of other types."""
    begin, says_4, says_0 = SL + IL, *(SL + interface(option(13, each)) for each in ("04", "00"))
    flags = {said: option(2, low(said)) for said in (0, 1, 0x40, 0x80, 0x0100_0000, 0x0100_0080)}
    old = block(2, f"00000700 240a0600 {US} {LENGTHS} {H1} {flags[0x80]}")
    snapped = block(3, "3c000000" + H1[:80])
    no_flags, ends_closed = option(1, "61") * 3, packet("", CLOSED)
    return [
        edge("flags of 4 bytes", begin + packet(flags[0x80], CLOSED), RAW),
        edge("flags of none: the interface's", says_4 + packet(flags[0], CLOSED), RAW),
        edge("flags of a direction", says_4 + packet(flags[1], CLOSED), RAW),
        edge("flags of 2 bytes for 4", says_4 + packet(flags[0x40], CLOSED), fault=UNCLEAR),
        edge("flags: found wrong", begin + packet(flags[0x0100_0000]), f"B 0 A 1 {H1}"),
        edge("4 bytes, found wrong", begin + packet(flags[0x0100_0080], CLOSED), RAW),
        edge("the first of two flags", begin + packet(flags[0x80] + flags[0], CLOSED), RAW),
        edge("2 bytes of flags", begin + packet(option(2, "8000")), fault=DAMAGED),
        edge("an old packet", begin + old, f"R 0 A 1 {H1}"),
        edge("options that don't count", begin + packet(no_flags), ARRIVAL),
        edge("an interface of 0 bytes", says_0 + ends_closed, f"F 0 A 1 {CLOSED}"),
        edge("an interface of 4 bytes", says_4 + ends_closed, RAW),
        edge("a simple packet, snapped", SL + interface(snap=low(40)) + snapped, fault="NoTime 1"),
        edge("a simple packet, not snapped", SL + interface(snap=ZERO) + snapped, fault=DAMAGED),
    ]


def unit_rows() -> list[Row]:
    """Units of stamps, rounded down; tshark computes those beyond 10^-10 and 2^-34 s with too few
    bits. Times are so many ns since 1970."""
    rows = []
    for power in (0, 1, 6, 9, 10, 11, 18, 19, 127, 128, 129, 148, 160, 162, 163, 191, 192, 255):
        units = 2 ** (power - 128) if power >= 128 else 10**power
        begin = SL + interface(option(9, f"{power:02x}"))
        last, latest = 10**15 * units // 10**9, LATEST * units // 10**9
        for ticks in {0, 1, 10**18 + 7, last, last + units, latest, latest + units, 2**64 - 1}:
            stamp = ticks * 10**9 // units
            if ticks >= 2**64:
                continue
            fault = "BadTime 1" if stamp > LATEST else "TimeTooLarge 1" if stamp > 10**15 else ""
            listed = "" if fault else f"F {stamp} A 1 {H1}"
            data = begin + packet(ticks=ticks)
            rows.append(edge(f"unit {power}, {ticks}", data, listed, fault, Options(origin=0)))
    return rows


def offset_rows() -> list[Row]:
    """Offsets of stamps."""
    at = {s: SL + interface(option(14, low(s, 8))) for s in (5, -5, -6, 2**63 - 1, -(2**63))}
    zero, last = Options(origin=0), f"F {LATEST % 10**9} A 1 {H1}"
    nearly = SL + interface(option(9, "09") + option(14, low(-(LATEST // 10**9), 8)))
    return [
        edge("an offset", at[5] + packet(ticks=1), f"F 5000001000 A 1 {H1}", options=zero),
        edge("back to 0", at[-5] + packet(ticks=5 * 10**6), ARRIVAL, options=zero),
        # tshark takes it
        edge("before 1970", at[-6] + packet(ticks=5 * 10**6), fault="BadTime 1"),
        edge("the greatest offset", at[2**63 - 1] + packet(ticks=0), fault="BadTime 1"),
        edge("the least offset", at[-(2**63)] + packet(ticks=0), fault="BadTime 1"),
        edge("the last ns, less an offset", nearly + packet(ticks=LATEST), last, options=zero),
        edge("a ns more, less an offset", nearly + packet(ticks=LATEST + 1), fault="BadTime 1"),
    ]


def edges() -> list[Row]:
    """All."""
    groups = pcap_rows() + length_rows() + block_rows() + described_rows() + option_rows()
    return groups + packet_rows() + unit_rows() + offset_rows()
