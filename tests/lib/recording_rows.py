"""Recordings spelled out byte by byte, in hexadecimal, and what a run reports of each."""
from __future__ import annotations

from typing import NamedTuple

from frames import HELLO, sealed
from reads import ORDERS
from recorded_arrivals import Options

# the frames of docs/FORMATS.md: link 1 with the message `hello`, link 2 with `world`, 60 bytes each
H1 = HELLO.hex()
H2 = "030000000002020000000220080045000021000000000111cce90a000201e0e00002"
H2 += "07d007d0000d0000776f726c6400000000000000000000000000"
FCS = sealed(HELLO)[60:].hex()

# pcap: low byte first, us; and high byte first, ns, frames that end with 4 bytes of check sequence
PL = "d4c3b2a1 02000400 00000000 00000000 00000400 01000000"
PB = "a1b23c4d 00020004 00000000 00000000 00040000 24000001"
# pcapng: a section with either byte first; interfaces in us, in ns, and one that isn't Ethernet
SL = "0a0d0d0a 1c000000 4d3c2b1a 01000000 ffffffff ffffffff 1c000000"
SB = "0a0d0d0a 0000001c 1a2b3c4d 00010000 ffffffff ffffffff 0000001c"
IL = "01000000 14000000 01000000 00000400 14000000"
IL9 = "01000000 20000000 01000000 00000400 09000100 09000000 00000000 20000000"
IB9 = "00000001 00000020 00010000 00040000 00090001 09000000 00000000 00000020"
IW = "01000000 14000000 69000000 00000400 14000000"
CUSTOM = "ad0b0000 10000000 d97e0000 10000000"
ZERO, ONE, LENGTHS = "00000000", "01000000", "3c000000 3c000000"
NS, US = "00002a36", "00401e18"  # 1,700,000,000 s of N, and of E
FIRST_NS = 1_700_000_000 * 10**9

ACCEPT = "V 1 A accept"
OK = f"{ACCEPT} / D 1 6720 A 3 / M 6720 s3 1 68656c6c6f"


def pcap_frame(fraction: str, frame: str, lengths: str = LENGTHS, seconds: str = "00f15365") -> str:
    """A frame of PL, by default of 60 bytes."""
    return f"{seconds} {fraction} {lengths} {frame}"


def packet_us(ticks: str, frame: str) -> str:
    """An enhanced packet of the first interface, in us."""
    return f"06000000 5c000000 00000000 240a0600 {ticks} {LENGTHS} {frame} 5c000000"


def packet_ns(interface: str, ticks: str, frame: str) -> str:
    """An enhanced packet in ns."""
    return f"06000000 5c000000 {interface} fe9c9717 {ticks} {LENGTHS} {frame} 5c000000"


def statistics(interface: str, drops: str, system_drops: str) -> str:
    """What the recorder lost: at the interface, and in the operating system."""
    values = f"05000800 {drops} 00000000 07000800 {system_drops} 00000000"
    return f"05000000 30000000 {interface} 240a0600 {US} {values} 30000000"


R, E, N, Z = pcap_frame, packet_us, packet_ns, statistics
F1 = f"{PL} {R(ZERO, H1)}"
G1 = f"{SL} {IL} {E(US, H1)}"
BACK = PL + R(ONE, H1) + R(ZERO, H2)


def from_sender(address: str) -> str:
    """H1 with another source address."""
    return H1[:12] + address + H1[24:]


class Row(NamedTuple):
    """A recording, and what is reported of it. Between lines stands ` / `, for words that aren't
    looked at `..`."""

    name: str
    data: str
    told: str
    fault: str = ""  # without `recording`
    options: Options = Options()
    summary: str = ".."
    skipped: str = ".."
    listed: str = ".."
    rule: str = ""  # the words of `police`

    def bytes(self) -> bytes:
        """The recording."""
        return bytes.fromhex(self.data)


def origin_row() -> Row:
    """One that skips for four reasons."""
    frames = [
        R("3f420f00", H1, seconds="fff05365"),
        R(ZERO, "ff" * 6 + H1[12:]),
        R(ONE, from_sender("020000000920")),
        R("02000000", from_sender("020000000160")),
        R("03000000", H1),
    ]
    return Row(
        "before the origin, not AFDX, an unknown sender, no network",
        PL + "".join(frames),
        "V 5 A accept / D 5 9720 A 3 / M 9720 s3 1 68656c6c6f",
        options=Options(origin=FIRST_NS),
        summary="lines 5 accepted 1 ..",
        skipped="no-frame 0 left-out 0 not-afdx 1 unknown-sender 1 no-network 1 before-origin 1"
        " recorder-lost 0 claimed 1 ..",
        listed="# before-origin 1 / # not-afdx 2 / # unknown-sender 3 / # no-network 4"
        f" / F 3000 A 1 {H1}",
    )


def form_rows() -> list[Row]:
    """Of each form."""
    long, third = "00000040 00000040", H1 + FCS[:6] + "50"
    high = "00000006 0000005c 00000000 17979cfe 362a0001 0000003c 0000003c"
    sealed_frame = f"{long} {H1} {FCS}"
    return [
        Row(
            "pcap, low byte first, in us",
            f"{PL} {R('05000000', H1)} {R('f9010000', H1)}",
            f"{OK} / V 2 A accept / D 2 506720 A 3 / X 506720 s3 2 redundant",
        ),
        Row(
            "pcap, high byte first, in ns, with check sequences",
            f"{PB} 6553f100 00000000 {sealed_frame} 6553f100 0007a11f {sealed_frame}"
            f"6553f100 0007a120 {long} {third}",
            f"{OK} / V 2 A drop over-rate / V 3 A drop bad-fcs",
        ),
        Row(
            "pcapng, two sections, two orders of bytes",
            f"{SL} {IL} {IL9} {CUSTOM} {N(ONE, NS, H2)} {SB} {IB9} {high} {H1} 0000005c",
            "V 2 A accept / V 3 A accept / D 2 6720 A 3 / M 6720 s3 2 776f726c64 / D 3 13440 A 3"
            " / M 13440 s3 1 68656c6c6f",
        ),
        origin_row(),
    ]


def check_sequence_rows() -> list[Row]:
    """Check sequences that aren't said, and frames that were cut."""
    unsaid = PL + R(ZERO, H1 + FCS, "40000000 40000000")
    without, beside = (PL + R(ZERO, H1, f"3c000000 {each}000000") for each in ("40", "41"))
    no = Options(fcs=False)
    return [
        Row("a check sequence that isn't said", unsaid, "", "FcsUnclear 1"),
        Row("with --fcs yes it is one", unsaid, OK, options=Options(fcs=True)),
        Row("with --fcs no it is none", unsaid, "V 1 A drop over-lmax", options=no),
        Row("a cut frame", F1 + R("f4010000", H1[:80], "28000000 3c000000"), ACCEPT, "Cut 2"),
        Row("4 bytes fewer than on the wire", without, "", "Cut 1"),
        Row("4 bytes fewer, with --fcs no", without, OK, options=no),
        Row("5 bytes fewer, with --fcs no", beside, "", "Cut 1", no),
    ]


def interface_rows() -> list[Row]:
    """Interfaces that are put to a side and a port, or left out; what the recorder lost."""
    other = f"06000000 24000000 {ONE} 240a0600 {US} {ONE} {ONE} 80000000 24000000"
    lost = Z(ZERO, "07000000", ZERO) + Z(ZERO, "25000000", "02000000")
    data = SL + IL + IW + E(US, H1) + other + lost
    return [
        Row(
            "an interface at a side and port, and one that is left out",
            data,
            "V 1 B accept / D 1 6720 B 3 / M 6720 s3 1 68656c6c6f",
            options=Options({0: "B:1", 1: "-"}),
            summary="lines 2 accepted 1 ..",
            skipped="no-frame 0 left-out 1 .. recorder-lost 39 claimed 0 ..",
        ),
        Row("an interface that isn't Ethernet", data, ACCEPT, "NotEthernet 2"),
    ]


def fault_rows() -> list[Row]:
    """Each fault of the structure, and those of time."""
    simple = f"03000000 4c000000 3c000000 {H1} 4c000000"
    late = "40336365"  # 1,000,000 s later
    return [
        Row("the end within a frame", (F1 + R("f4010000", H1))[:-2], ACCEPT, "Ended 1"),
        Row("two lengths", G1 + E("f4411e18", H1)[:-8] + "58000000", ACCEPT, "Damaged 1"),
        Row("statistics of no interface", G1 + Z(ONE, ZERO, ZERO), ACCEPT, "Damaged 1"),
        Row("two pcap files", F1 + F1, ACCEPT, "Damaged 2"),
        Row(
            "a fraction of a second",
            PL + R("3f420f00", H1) + R("40420f00", H1),
            ACCEPT,
            "BadTime 2",
        ),
        Row("back, --line-buffered", BACK, ACCEPT, "TimeBack 2", Options(at_once=True)),
        Row("a packet without a stamp", SL + IL + simple, "", "NoTime 1"),
        Row("another version", PL.replace("02000400", "02000300"), "", "BadVersion 0"),
        Row(
            "a time beyond 10^15",
            F1 + R(ZERO, H1, seconds=late) + R(ONE, H1, seconds=late),
            f"{OK} / V 2 A accept",
            "TimeTooLarge 3",
        ),
    ]


def empty_rows() -> list[Row]:
    """Recordings of which nothing is left, and what is none."""
    rogue = PL + 2 * R(ZERO, from_sender("020000000920"))
    at_one = Options({0: "A:1"})
    return [
        Row("no arrival", rogue, "", "NoArrival 2"),
        Row(
            "an unknown sender at a port that is given",
            rogue,
            "V 1 A accept / V 2 A drop over-rate / D 1 6720 A 3 / M 6720 s3 1 68656c6c6f",
            options=at_one,
        ),
        Row("no number", PL, ""),
        Row("a list", b"F 0 A 1 -\n".hex(), "", "NotRecording 0", Options({0: "A"})),
    ]


def packed_rows() -> list[Row]:
    """Packed files, by their first bytes; gzip and bzip2 have two and three of four."""
    heads = {
        "gzip": "1f8b0800",
        "bzip2": "425a6839",
        "zstd": "28b52ffd",
        "xz": "fd377a58",
        "zip": "504b0304",
        "gzip, whatever follows": "1f8bffff",
        "bzip2, whatever follows": "425a6800",
    }
    more, of_police = "00" * 20, Options(port=1)
    return [
        *(Row(f"packed by {name}", head + more, "", "Packed") for name, head in heads.items()),
        Row("four packed bytes", "1f8b0800", "", "Packed", Options(fcs=True)),
        Row("police: packed", "1f8b0800" + more, "", "Packed", of_police, rule="1 64 500"),
    ]


def police_rows() -> list[Row]:
    """Of `police`."""
    found_wrong = f"06000000 68000000 {ZERO} fe9c9717 {NS} {LENGTHS} {H1}"
    found_wrong += "02000400 00000001 00000000 68000000"
    frames = N(ZERO, "01002a36", H1) + N(ZERO, "02002a36", H2) + N(ZERO, "1fa13136", H1)
    return [
        Row(
            "police: a check sequence that the recorder found wrong",
            SL + IL9 + found_wrong + frames,
            "V 1 A drop bad-fcs / V 2 A accept / V 3 A drop unknown-link / V 4 A drop over-rate",
            options=Options({0: "A"}, port=1),
            rule="1 64 500",
        ),
        Row(
            "police: a side that the frame claims",
            F1,
            ACCEPT,
            options=Options(port=1),
            summary="lines 1 accepted 1 ..",
            skipped=".. claimed 1 ..",
            rule="1 64 500",
        ),
    ]


def rows() -> list[Row]:
    """All."""
    groups = form_rows() + check_sequence_rows() + interface_rows()
    return groups + fault_rows() + empty_rows() + packed_rows() + police_rows()


# F1 with words that are wrong, and the line that says so
WRONG_WORDS = [
    (["--interface=0=A:25"], "words BadInterface"),
    (["--interface=4096=A"], "words BadInterface"),
    (["--interface=1=A", "--interface=1=-"], "words BadInterface"),
    (["--origin=9223372036854775808"], "words BadNumber"),
]
WRONG_ORDERS = [
    (["--reorder=100001"], "words BadNumber"),
    ([f"--reorder={2**64 - 1}", "--line-buffered"], "words BadNumber"),
    (["--reorder=100001", "--origin=9223372036854775808"], "words BadNumber"),
    (["--reorder=100001", "--interface=0=A:25"], "words BadInterface"),
]
WRONG_WORDS += WRONG_ORDERS if ORDERS else []
