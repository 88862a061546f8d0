"""More recordings for `conform`, spelled out: words, faults of one recording and of either of two,
what was seen, stamps, and what `--summary` writes."""
from __future__ import annotations

from edge_rows import block, low, option
from recorded_forms import packet as any_packet
from recorded_rows import ALL_OF_A, BACK, BAD, CAME, HERE, LOSSY, PAIR, RIGHT, SAME, SEALED, TWO
from recorded_rows import RecordedRow, X, one, packet
from recording_rows import FCS, FIRST_NS, H1, H2, IL9, IW, PB, PL, SL, ZERO, R, Z
from rows import HEADS, list_of

K1 = "--switch k1"
NONE = "0/0/0/0/0/0/0/0/0/0"  # nothing was skipped, nothing else counts

# ---- words ---------------------------------------------------------------------------------------

BAD_OF_ONE = (
    "", "--left 1=A:3", "--interface 0=A:1", "--lossy", "--reorder 0", "--fcs no", "--stamps end",
    "--interface 4096=A:1 --left 1=A:3", "--interface 00000=A:1 --left 1=A:3",
    "--interface 0=A:0 --left 1=A:3", "--interface 0=A:25 --left 1=A:3",
    "--interface 0=A:001 --left 1=A:3", "--interface 0=C:1 --left 1=A:3",
    "--interface 0=a:1 --left 1=A:3", "--interface 0=AB --left 1=A:3",
    "--interface =A --left 1=A:3", "--interface 0= --left 1=A:3", "--interface 0 --left 1=A:3",
    "--interface x=A --left 1=A:3", "--interface 0=- --left 1=A:3", "--interface 0=A --left 1=-",
    "--interface 0=A:1 --left 1=B", "--interface '0=A k1:1' --left 1=A:3",
    "--interface 0=A:1 --left '1=A k1:3'", "--interface '0=A k1' --left 1=A:3",
    "--interface '0=A ' --left 1=A:3", "--interface 0=A --interface 0=A --left 1=A:3",
    "--interface 0=A:1 --left 1=A:3 --left 1=A:3", "--interface 0=A:1 --left 1=A:3 --left 0=A:3",
    "--interface 0=A:1 --left 4096=A:3", "--interface 0=A:1 --left 1=A:0",
    "--interface 0=A:1 --left 1=A:3:3",
)
BAD_OF_TWO = (
    "--left 0=A:3", "--interface 0=A:1", "--lossy", "--reorder 0", "--fcs yes", "--stamps start",
    "--interface 0=A:1 --left 0=A:3 --left 0=B:3", "--interface 0=A --interface 0=B --left 0=A:3",
    "--interface 0=A:1 --left 0=A:3 --interface 1=-", "--interface 0=A:1 --left 0=A",
)
WORD_ROWS = (
    *(RecordedRow(f"bad words of one recording: {words or 'none'}", RIGHT, "", "", BAD, words)
      for words in BAD_OF_ONE),
    *(RecordedRow(f"bad words of two recordings: {words}", PAIR, "", "", BAD, words)
      for words in BAD_OF_TWO),
    *(RecordedRow(f"bad words of a switch of two: {words}", data, "", "", BAD, words, config="two")
      for data, words in (
          (RIGHT, f"{K1} --interface 0=A --left 1=A:3"), (PAIR, f"{K1} {ALL_OF_A}"),
          (RIGHT, f"{K1} --interface '0=A k1:1' --left 1=A:3"),
          (RIGHT, f"{K1} --interface 0=A:1 --interface 2=B --left 1=A:3"))),
    RecordedRow("recordings as lists", (PL + R(ZERO, H1), PL), "", "", BAD, ""),
    RecordedRow("lists in recordings' place", (list_of("0", "came").hex(),
                                               list_of("6720", "left").hex()), "", "1/0/0/0", "",
                "", 0),
    RecordedRow("wrong interfaces before a faulty configuration", RIGHT, "", "", BAD, "--lossy",
                config="faulty"),
    RecordedRow("a wrong number before a faulty configuration", RIGHT, "", "", "words BadNumber",
                f"{HERE} --asked 1000001", config="faulty"),
    RecordedRow("a faulty configuration before a fault", (ZERO,), "", "",
                "config Missing top 0 key 2", HERE, config="faulty"),
    RecordedRow("no such switch before a fault", (ZERO,), "", "", "words NoSuchSwitch",
                f"{HERE} --switch k3", config="two"),
    RecordedRow("a cascade without a switch", RIGHT, "", "", "words NoSuchSwitch", config="two"),
    RecordedRow("a file of one with a switch", RIGHT, "", "", "words NoSuchSwitch",
                f"{HERE} {K1}"),
    RecordedRow("zeros in front", RIGHT, "", "1/0/0/0", "", "--interface 0000=A:01 --left 01=A:3"),
    RecordedRow("two interfaces at a port",
                (TWO + IL9 + IL9 + packet(0, 0, H1) + packet(1, 6720, H1),),
                "", "1/0/0/0", "", f"{HERE} --interface 3=A:1 --left 2=A:3"),
    RecordedRow("the most that are put in order", RIGHT, "", "1/0/0/0", "",
                f"{HERE} --reorder 100000"),
)

# ---- faults --------------------------------------------------------------------------------------

# name and number, and the recording: of two interfaces, or a pcap
FAULTY: tuple[tuple[str, str], ...] = (
    ("NotRecording 0", b"F 0 A 1 -\n".hex()),
    ("NotRecording 0", SL[:6]),
    ("NotRecording 0", ""),
    ("Packed", "1f8b0800 00000000"),
    ("BadVersion 0", PL[:8] + "02000300" + PL[17:]),
    ("Ended 0", PL[:-2]),
    ("Ended 1", PL + R(ZERO, H1) + R(low(1), H1)[:-2]),
    ("Damaged 0", TWO + Z(low(7), ZERO, ZERO)),
    ("Damaged 1", TWO + packet(0, 0, H1) + packet(2, 0, H1)),
    ("NotEthernet 1", SL + IW + IL9 + packet(0, 0, H1)),
    ("NoTime 2", TWO + packet(0, 0, H1) + block(3, low(60) + H1)),
    ("BadTime 1", PL + R("40420f00", H1)),
    ("Cut 1", PL + R(ZERO, H1, "3c000000 40000000")),
    ("FcsUnclear 1", PL + R(ZERO, H1 + FCS, 2 * low(64))),
    ("TimeTooLarge 2", PL + R(ZERO, H1) + R(low(1), H1, seconds="40336365")),
    ("NoArrival 1", PL + R(ZERO, H1[:10], 2 * low(5))),
)


def fault_rows() -> list[RecordedRow]:
    """Each fault of what came and of what left; of one recording, where all came."""
    rows = []
    last = "--until 1000000000000000"
    for fault, data in FAULTY:
        is_short = fault == "NoArrival 1"  # under 6 bytes: what left so is foreign
        name = f"{fault}, {len(data)}"
        rows.append(RecordedRow(f"{name}: one recording", (data,), "", "", f"recording {fault}",
                                f"{HERE} {last}"))
        rows.append(RecordedRow(f"{name}: what came", (data, PAIR[1]), "", "",
                                f"recording {fault} came", f"{SAME} {last}"))
        if not is_short:
            rows.append(RecordedRow(f"{name}: what left", (PAIR[0], data), "", "",
                                    f"recording {fault} left", f"{SAME} {last}"))
    return rows


FAR = PL + R(ZERO, H1) + R(low(1), H1, seconds="40336365")
FAULT_ROWS = (
    *fault_rows(),
    RecordedRow("faults of both", (PL[:-2], PL[:-4]), "", "", "recording Ended 0 came", SAME),
    RecordedRow("a second one of which nothing is taken",
                (PAIR[0], SL + IL9 + IL9 + packet(1, 0, H1)), "", "",
                "recording NoArrival 1 left", SAME),
    RecordedRow("one of which nothing is taken", one((0, 0, H1), (1, 0, H2)), "", "",
                "recording NoArrival 2", "--interface 2=A:1 --left 3=A:3"),
    RecordedRow("no frames at all", (TWO,), "", "0/0/0/0"),
    RecordedRow("no frames of two", (PL, TWO), "", "0/0/0/0", "", SAME),
    RecordedRow("nothing came, and it has no frames", (PL, PAIR[1]), "strange 1 A 3 no-arrival",
                "0/0/0/0", "", SAME),
    RecordedRow("nothing left, and it has no frames", (PAIR[0], PL), "stopped 1 A 3", "0/0/0/0",
                "", f"{SAME} --until 40000"),
    RecordedRow("told before a fault", (PL + R(ZERO, H1) + R(low(90), H2), PL + R(low(40), X)
                                        + R(low(41), X) + "00"),
                "stopped 1 A 3 / strange 1 A 3 bad-address", "", "recording Ended 2 left", SAME),
    RecordedRow("a time too large, of what came",
                (PL + R(ZERO, H1, seconds="40336365") + R(low(1), H1, seconds="40336365"),
                 PL + R(ZERO, X)), "strange 1 A 3 bad-address", "",
                "recording TimeTooLarge 2 came", SAME),
    RecordedRow("a time too large ends one recording",
                (PL + R(ZERO, H1) + R(ZERO, H1, seconds="40336365")
                 + R(low(1), H1, seconds="40336365"),), "stopped 1 A 3", "",
                "recording TimeTooLarge 3", "--interface 0=A:1 --left 1=A:3"),
    RecordedRow("times of two that go back", (PAIR[0], PL + R(low(7), H1) + R(low(6), H1)), "", "",
                "recording TimeBack 2 left", f"{SAME} --reorder 0"),
    RecordedRow("times of what came that go back", (PL + R(low(7), H1) + R(low(6), H1), PAIR[1]),
                "", "", "recording TimeBack 2 came", f"{SAME} --reorder 0"),
    *(RecordedRow(f"a fault of what {name}, by {words}", data, "", "",
                  f"recording TimeTooLarge 2 {name}", f"{words} --until 1000000000000000")
      for words in ("--interface 0=B:1 --left 0=A:3", "--interface 0=A --left 0=B:3")
      for name, data in (("came", (FAR, PAIR[1])), ("left", (PAIR[0], FAR)))),
    RecordedRow("what left is of no Ethernet", (SL + IL9 + IW + packet(0, 0, H1)
                                                + packet(1, 6720, H1),), "", "",
                "recording NotEthernet 2"),
    RecordedRow("what left is cut", (PAIR[0], PL + R(low(7), H1, "3c000000 40000000")), "", "",
                "recording Cut 1 left", SAME),
)

# ---- what was lost -------------------------------------------------------------------------------

SOUND = SL + IL9 + packet(0, 0, H1)
LEFT = SL + IL9 + packet(0, 6720, H1)
FEW, MOST = Z(ZERO, low(3), low(4)), Z(ZERO, "ffffffff", "ffffffff")
LOSSY_ROWS = (
    RecordedRow("lost of what came", (SOUND + FEW, LEFT), "", "", "recording Lossy 7", SAME),
    RecordedRow("lost of what left", (SOUND, LEFT + FEW), "", "", "recording Lossy 7", SAME),
    RecordedRow("lost of both", (SOUND + FEW, LEFT + MOST), "", "", "recording Lossy 8589934597",
                SAME),
    RecordedRow("lost of both, and said to be fine", (SOUND + FEW, LEFT + MOST), "", "1/0/0/0", "",
                f"{SAME} --lossy"),
    RecordedRow("lost of an interface that isn't named", one(CAME, (1, 6720, H1),
                                                             more=IL9 + Z(low(2), low(1), ZERO)),
                "", "", "recording Lossy 1"),
    RecordedRow("none was lost", one(CAME, (1, 6720, H1), more=Z(ZERO, ZERO, ZERO)), "", "1/0/0/0"),
    RecordedRow("a fault before what was lost", (SOUND + FEW, LEFT + "00"), "", "",
                "recording Ended 1 left", SAME),
    RecordedRow("nothing is shown, and some were lost", (SOUND + FEW, SL + IL9), "", "",
                "recording Lossy 7", SAME),
)

# ---- what was seen, stamps, long frames ----------------------------------------------------------

BOTH_LINKS = one((0, 0, H1), (0, 0, H2), (1, 6720, H1), (1, 13440, H2))
LONG = H1[:-2] + "00" * 1_950
ENDS = (LONG + "01", LONG + "02")  # of 2,010 bytes, alike in the first 2,000
AT_ENDS = (TWO + "".join(any_packet(place, FIRST_NS + 10_000 * place, bytes.fromhex(each))
                         for place, each in enumerate(ENDS)),)
LENIENT = f"{HERE} --slack 1000000 --until 3000000"
NINTH, THIRD = HEADS["9"] + "00", HEADS["3"] + "00"


def wrong(interface: int, time: int, frame: str = H1) -> str:
    """A packet of a frame whose check sequence the recorder found wrong."""
    head = low(interface) + low(FIRST_NS + time >> 32) + low(FIRST_NS + time) + 2 * low(60)
    return block(6, head + frame + option(2, "00000001"))


SEEN_ROWS = (
    RecordedRow("a link under another's port", one((0, 0, H1), (0, 0, H2), (1, 6720, H1)), "",
                "1/0/0/0"),
    RecordedRow("what a link sends isn't recorded, at a port of none",
                one((0, 0, H1), (1, 6720, H1), (1, 6721, H2)), "", "1/0/0/1", "",
                f"{HERE} --leave-out 2"),
    RecordedRow("an unseen sender's frame at a wrong port", one((0, 0, H1), (1, 13440, H2)),
                "strange 2 A 1 not-its-port", "0/0/0/0", "", "--interface 0=A:1 --left 1=A:1", 4),
    RecordedRow("an unseen sender's frame of a link that goes elsewhere",
                one((0, 0, H1), (1, 6720, H1), (1, 9000, THIRD)), "strange 3 A 3 not-its-port",
                "1/0/0/0/0", "", HERE, 5, config="third"),
    RecordedRow("an unseen sender's damaged frame",
                (TWO + packet(0, 0, H1) + packet(1, 6720, H1) + wrong(1, 13440, H2),),
                "strange 3 A 3 bad-fcs", "1/0/0/0"),
    RecordedRow("an unseen sender's damaged frame, left out",
                (TWO + packet(0, 0, H1) + packet(1, 6720, H1) + wrong(1, 13440, H2),), "",
                "1/0/0/1", "", f"{HERE} --leave-out 2"),
    RecordedRow("an unknown link isn't passed over",
                one((0, 0, H1), (1, 6720, H1), (1, 6721, NINTH)), "strange 3 A 3 unknown-link",
                "1/0/0/0"),
    RecordedRow("the other side", (TWO + IL9 + packet(0, 0, H1) + packet(1, 6720, H1),),
                "stopped 1 A 3", "0/0/0/1", "",
                "--interface 0=A:1 --left 1=B:3 --left 2=A:3 --until 40000"),
    RecordedRow("an interface that isn't there", RIGHT, "", "", "recording Absent 4",
                f"{HERE} --interface 4=B:1"),
    RecordedRow("two that aren't there", RIGHT, "", "", "recording Absent 2",
                f"{HERE} --interface 4=B:1 --left 2=B:3"),
    RecordedRow("one that isn't there, behind what is found", one(CAME, (1, 17001, H1)),
                "late 1 A 3 1", "", "recording Absent 2", f"{HERE} --left 2=B:3"),
    RecordedRow("one that isn't there, and frames that are lost", LOSSY, "late 1 A 3 1", "",
                "recording Absent 4095", f"{HERE} --left 4095=B:3"),
    RecordedRow("one that isn't there, and frames that may be lost", LOSSY, "late 1 A 3 1", "",
                "recording Absent 4095", f"{HERE} --left 4095=B:3 --lossy"),
    RecordedRow("one that what came hasn't", PAIR, "", "", "recording Absent 1 came",
                f"{SAME} --interface 1=B:1 --left 1=B:3"),
    RecordedRow("one that what left hasn't", PAIR, "", "", "recording Absent 1 left",
                f"{SAME} --left 1=B:3"),
    RecordedRow("one that another section has",
                (SL + IL9 + packet(0, 0, H1) + SL + IL9 + IL9 + packet(1, 6720, H1),), "",
                "1/0/0/0"),
    RecordedRow("not all was exercised", RIGHT, "", "1/0/0/0/1", "",
                "--interface 0=A --left 1=A:3 --exercised", 2),
    RecordedRow("all that was seen was exercised", RIGHT, "", "1/0/0/0/0", "",
                f"{HERE} --exercised"),
    RecordedRow("the same on the other side", RIGHT, "", "1/0/0/0", "",
                "--interface 0=B:1 --left 1=B:3"),
    RecordedRow("both links of a side", BOTH_LINKS, "", "2/0/0/0/0", "",
                "--interface 0=A --left 1=A:3", 2),
    RecordedRow("before the begin a sender that wasn't recorded",
                one((0, 0, H1), (1, 6720, H1), (1, 13440, H2), (1, 20160, H2)), "", "0/0/0/1", "",
                f"{HERE} --from 20000"),
    RecordedRow("the first bytes alone", AT_ENDS, "passed 1 A 3 too-long", "0/0/0/0", "", LENIENT),
    RecordedRow("a switch of two", one((0, 0, H1), (0, 0, H1), (1, 6720, H1)), "stopped 2 A 3",
                "1/0/0/0/0", "", f"{K1} {HERE} --until 30000", 1, config="two"),
    RecordedRow("stamps of ends", RIGHT, "", "1/0/0/0", "", f"{HERE} --stamps end"),
    # 512 ns of 1 Gbit/s, 51,200 ns of 10 Mbit/s; 57,600 ns of wire time
    RecordedRow("stamps of starts, by two rates", one((0, 0, H1), (1, 6_912, H1)), "", "1/0/0/0",
                "", f"{HERE} --stamps start --inner 60000", config="rates"),
    RecordedRow("stamps of starts, by two rates, early", one((0, 0, H1), (1, 6_911, H1)),
                "early 1 A 3 1", "0/0/0/0", "", f"{HERE} --stamps start --inner 60000",
                config="rates"),
)
LATE = ((0, 0, H1), (0, 100_000, H1), (0, 100_001, H1), (1, 6720, H1))
ORDER_ROWS = (
    RecordedRow("behind two that came", one(*LATE), "", "1/0/0/0", "", f"{HERE} --reorder 2"),
    RecordedRow("behind two that came, of which one is held", one(*LATE), "stopped 1 A 3", "",
                "recording TimeBack 4", f"{HERE} --reorder 1"),
    RecordedRow("in order, each of its own",
                (SL + IL9 + "".join(packet(*each) for each in LATE[:3]), LEFT), "", "1/0/0/0", "",
                f"{SAME} --reorder 0"),
    RecordedRow("out of order, as it is read", BACK, "", "", "recording TimeBack 2",
                f"{HERE} --line-buffered"),
    RecordedRow("out of order, as it is read, but one", BACK, "late 2 A 3 1", "0/0/0/0", "",
                f"{HERE} --line-buffered --reorder 1"),
)
FORM_ROWS = (
    RecordedRow("two sections", (TWO + packet(0, 0, H1) + TWO + packet(1, 6720, H1),), "",
                "1/0/0/0"),
    RecordedRow("two interfaces of each port",
                (TWO + IL9 + IL9 + packet(0, 0, H1) + packet(1, 6720, H1)
                 + packet(2, 1_000_000, H1) + packet(3, 1_006_720, H1),), "", "2/0/0/0", "",
                f"{HERE} --interface 2=A:1 --left 3=A:3"),
    RecordedRow("found wrong as it came and as it left", (TWO + wrong(0, 0) + wrong(1, 6720),),
                "passed 1 A 3 bad-fcs", "0/0/0/0"),
    RecordedRow("found wrong as it left", (TWO + packet(0, 0, H1) + wrong(1, 6720),),
                "strange 2 A 3 bad-fcs / stopped 1 A 3", "0/0/0/0", "", f"{HERE} --until 40000"),
    RecordedRow("check sequences that aren't said", (PL + R(ZERO, H1 + FCS, 2 * low(64)),
                                                     PL + R(low(7), H1 + FCS, 2 * low(64))), "",
                "1/0/0/0", "", f"{SAME} --fcs yes"),
    RecordedRow("check sequences that were taken off", (PL + R(ZERO, H1, low(60) + low(64)),
                                                        PL + R(low(7), H1, low(60) + low(64))), "",
                "1/0/0/0", "", f"{SAME} --fcs no"),
    RecordedRow("check sequences, one said and one not", (f"{PB} 6553f100 00000000 {SEALED}",
                                                          SL + IL9 + packet(0, 6720, H1)), "",
                "1/0/0/0", "", SAME),
)
SUMMARY_ROWS = (
    RecordedRow("nothing was skipped", RIGHT, "", "1/0/0/0", "", f"{HERE} --summary", 3, NONE),
    RecordedRow("nothing was skipped of two", PAIR, "", "1/0/0/0", "", f"{SAME} --summary", 3,
                f"{NONE} / {NONE}"),
    RecordedRow("some of each kind was skipped",
                (TWO + IL9 + "ad0b0000 10000000 d97e0000 10000000" + packet(2, 0, H1)
                 + packet(0, 0, X) + packet(0, 0, H1[:12] + "020000000920" + H1[24:])
                 + packet(0, 0, H1[:12] + "020000000160" + H1[24:])
                 + packet(0, 0, H1[:12] + "020000000140" + H1[24:])
                 + packet(1, 0, H1[:12] + "020000000140" + H1[24:]) + Z(ZERO, low(3), ZERO),),
                "strange 7 A 3 no-arrival / stopped 5 A 3", "0/0/0/0", "",
                "--interface 0=A --left 1=A:3 --summary --lossy --until 40000",
                2, "1/1/1/1/0/0/3/2/1/0"),
)


MORE_RECORDED_ROWS = (
    *WORD_ROWS, *FAULT_ROWS, *LOSSY_ROWS, *SEEN_ROWS, *ORDER_ROWS, *FORM_ROWS, *SUMMARY_ROWS,
)
