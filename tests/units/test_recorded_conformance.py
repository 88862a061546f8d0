"""What is read of recordings of a switch, and which streams were recorded."""
from __future__ import annotations

import os
import struct
import tempfile
import unittest

try:
    from small_replay import CONFIG, arrival
except ModuleNotFoundError:
    raise unittest.SkipTest("there is no package numpy") from None

from afdx_tools.conformance.frames import Frame
from afdx_tools.conformance.judging import judged_of
from afdx_tools.conformance.measuring import Measured, Pair, Stream
from afdx_tools.conformance.numbers import Numbers
from afdx_tools.conformance.options import Options
from afdx_tools.conformance.recorded import Ends, Reading, Recorded
from afdx_tools.conformance.recorders import Recorders, Taps
from afdx_tools.lists import check_sequence
from afdx_tools.replay.checked import checked_of

BEGIN = 1_700_000_000 * 10**9  # ns since 1970
LEAST = 57_600  # of 64 bytes and 8 more at 800 ns, in ns
HOST = b"\xff" * 6 + bytes(54)  # a frame of the host's own
HERE = Recorders(("0=A:1",), ("1=A:3",))
Recorded_frame = tuple[int, int, bytes]  # an interface, a time, the bytes


def content(vl: int = 10, number: int = 0) -> bytes:
    """A frame of a link without its check sequence."""
    return bytes.fromhex(arrival(0, "A", vl, number).split(" ")[4])


def block(kind: int, body: bytes) -> bytes:
    """A block of a pcapng."""
    body += bytes(-len(body) % 4)
    length = struct.pack("<I", len(body) + 12)
    return struct.pack("<I", kind) + length + body + length


def pcapng(*frames: Recorded_frame, interfaces: int = 2, fcs: int | None = None) -> bytes:
    """A recording in ns; the check sequence's bytes are said where `fcs` is given."""
    options = struct.pack("<2HI", 9, 1, 9)
    options += b"" if fcs is None else struct.pack("<2HI", 13, 1, fcs)
    data = block(0x0A0D0D0A, struct.pack("<I2Hq", 0x1A2B3C4D, 1, 0, -1))
    data += block(1, struct.pack("<2HI", 1, 0, 0) + options + bytes(4)) * interfaces
    for interface, time, each in frames:
        high, low = divmod(BEGIN + time, 1 << 32)
        head = struct.pack("<5I", interface, high, low, len(each), len(each))
        data += block(6, head + each)
    return data


def read(*recordings: bytes, recorders: Recorders = HERE, came: int = 0, left: int = 0) -> Recorded:
    """What recordings have; a frame that came is named, and one that left."""
    with tempfile.TemporaryDirectory() as folder:
        paths = [os.path.join(folder, str(place)) for place in range(len(recordings))]
        for path, data in zip(paths, recordings):
            with open(path, "wb") as file:
                file.write(data)
        return Reading(recorders, Ends(CONFIG, 0), {False: {came}, True: {left}}).read(paths)


def short(frames: list[Frame]) -> list[tuple[int, int, str, int, int | None]]:
    """Number, time, side, port and link of each."""
    return [frame[:5] for frame in frames]


class Read(unittest.TestCase):
    """Which frames came, which left, where and when."""

    def test_by_interface(self) -> None:
        found = read(pcapng((1, 7000, content()), (0, 500, content()), (2, 0, content()),
                            (1, 600, HOST), (0, 700, HOST), interfaces=3))
        self.assertEqual(short(found.came), [(2, 0, "A", 1, 10)])
        self.assertEqual(short(found.left), [(4, 100, "A", 3, None), (1, 6500, "A", 3, 10)])
        self.assertEqual(found.time_0, BEGIN + 500)

    def test_two_recordings(self) -> None:
        found = read(pcapng((0, 0, content())), pcapng((0, 50, content(20))),
                     recorders=Recorders(("0=A:1",), ("0=B:3",)))
        self.assertEqual(short(found.came), [(1, 0, "A", 1, 10)])
        self.assertEqual(short(found.left), [(1, 50, "B", 3, 20)])

    def test_the_port_that_a_frame_names(self) -> None:
        odd = content()[:6] + b"\x03" + content()[7:]
        found = read(pcapng((0, 0, content(20)), (0, 1, odd)),
                     recorders=Recorders(("0=A",), ("1=A:3",)))
        self.assertEqual(short(found.came), [(1, 0, "A", 2, 20)])

    def test_with_and_without_check_sequences(self) -> None:
        whole = content() + check_sequence(content())
        keys = {each.key for given in (
            read(pcapng((0, 0, content()))),
            read(pcapng((0, 0, content()), fcs=0)),
            read(pcapng((0, 0, whole), fcs=4)),
            read(pcapng((0, 0, whole)), recorders=Recorders(("0=A:1",), ("1=A:3",), fcs=True)),
        ) for each in given.came}
        self.assertEqual(len(keys), 1)
        self.assertEqual(read(pcapng((0, 0, content()))).came[0].length, 64)

    def test_stamps_of_first_bits(self) -> None:
        data = pcapng((0, 0, content()), (1, 0, content()))
        for stamps, came, left in (("end", 0, 0), ("start", 0, 46_080), ("start-end", 5_120, 0),
                                   ("end-start", 0, 51_200)):
            found = read(data, recorders=Recorders(("0=A:1",), ("1=A:3",), stamps=stamps))
            self.assertEqual((found.came[0].time, found.left[0].time), (came, left), stamps)

    def test_where_named_frames_stand(self) -> None:
        found = read(pcapng((0, 5, content()), (1, 9, content())), came=1, left=2)
        self.assertEqual({key: (stood.interface, stood.stamp - BEGIN)
                          for key, stood in found.stood.items()},
                         {(False, 1): (0, 5), (True, 2): (1, 9)})


class Seen(unittest.TestCase):
    """Which streams were recorded."""

    def test_ports(self) -> None:
        taps = Recorders(("0=A:1", "1=B"), ("2=A:3",)).taps()
        seen = [taps.has(*place) for place in (("A", 1, False), ("A", 2, False), ("B", 2, False),
                                               ("A", 3, True), ("B", 3, True))]
        self.assertEqual(seen, [True, False, True, True, False])
        self.assertTrue(Taps().has("B", 24, True))

    def test_streams(self) -> None:
        found = read(pcapng((0, 0, content()), (1, LEAST, content()), (1, 99_000, content(20))))
        measured = Measured(CONFIG, Options(), found.came, found.left, [], HERE.taps())
        self.assertEqual(measured.streams(), [Stream("A", 10, 3)])
        self.assertEqual(measured.pairs(Stream("A", 10, 3)), [Pair(1, 2, LEAST)])

    def test_rows(self) -> None:
        found = read(pcapng((0, 0, content()), (1, 100_001, content())), came=1)
        judged = judged_of(["late 1 A 3 1",
                            "deviates 1 explained 0 open 0 uncertain 0 left-out 0 unseen 3",
                            "skipped no-frame 0 not-afdx 2"])
        measured = Measured(CONFIG, Options(), found.came, found.left, judged.deviations,
                            HERE.taps())
        numbers = Numbers(CONFIG, checked_of(["ok"]), judged, measured, found.stood)
        self.assertEqual([(row["link"], row["side"], row["lacks"]) for row in numbers.unseen()],
                         [(10, "B", "what came in at B:1"), (20, "A", "what came in at A:2"),
                          (20, "B", "what came in at B:2")])
        row = numbers.deviations()[0]
        self.assertEqual((row["interface"], row["stamp"]), (0, "2023-11-14 22:13:20.000000000"))
        self.assertEqual(judged.skipped, [{"no-frame": 0, "not-afdx": 2}])


if __name__ == "__main__":
    unittest.main()
