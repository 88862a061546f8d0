"""Writes recordings, pcap and pcapng, by the header and block classes of dpkt."""
from __future__ import annotations

from typing import BinaryIO

from afdx_tools.faults import Refused
from afdx_tools.recordings.options import WRITER, WRITER_CODE

try:
    from dpkt import pcap, pcapng
except ModuleNotFoundError as error:
    raise Refused("the package dpkt is missing: apt-get install python3-dpkt") from error

ETHERNET = 1
NAME, RESOLUTION, FCS = 2, 9, 13  # options of an interface
# In a pcap header: the bit that says that the length of the check sequence is known, and that
# length in words of two bytes in the four bits at the top.
FCS_KNOWN, FCS_4 = 0x0400_0000, 0x2000_0000
BILLION = 1_000_000_000
LONGEST_FRAME = 65_535  # bytes that a recording says it holds of a frame
LATEST_NS = (2**32 - 1) * BILLION + BILLION - 1  # since 1970, as pcap can say it
COMMENT = pcapng.PCAPNG_OPT_COMMENT


def in_range(time: int, frame: bytes, line: int) -> None:
    """Refuses what a recording can't say."""
    if not 0 <= time <= LATEST_NS:
        raise Refused(f"the time of line {line} is {time} ns since 1970, which no recording says")
    if len(frame) > LONGEST_FRAME:
        raise Refused(f"the frame of line {line} has more than {LONGEST_FRAME:,} bytes")


class Pcap:
    """A pcap file with times in ns, whose header says whether frames end with a check sequence."""

    def __init__(self, file: BinaryIO, has_check_sequences: bool) -> None:
        self._file = file
        link_type = FCS_KNOWN | ETHERNET | (FCS_4 if has_check_sequences else 0)
        header = pcap.LEFileHdr(
            magic=pcap.TCPDUMP_MAGIC_NANO, snaplen=LONGEST_FRAME, linktype=link_type
        )
        file.write(bytes(header))

    def write(self, time: int, frame: bytes) -> None:
        """A frame that came so many ns after 1970."""
        seconds, ns = divmod(time, BILLION)
        size = len(frame)
        header = pcap.LEPktHdr(tv_sec=seconds, tv_usec=ns, caplen=size, len=size)
        self._file.write(bytes(header) + frame)


def option(code: int, data: bytes) -> pcapng.PcapngOptionLE:
    """An option of a block."""
    return pcapng.PcapngOptionLE(code=code, data=data)


END = option(pcapng.PCAPNG_OPT_ENDOFOPT, b"")


class Pcapng:
    """A pcapng file with times in ns, frames with check sequences and comments, and an interface
    for each port of each switch to which frames came."""

    def __init__(self, file: BinaryIO, has_check_sequences: bool = True) -> None:
        self._file = file
        self._fcs = b"\x04" if has_check_sequences else b"\x00"
        self._taps: dict[str, int] = {}
        file.write(bytes(pcapng.SectionHeaderBlockLE(opts=[option(WRITER_CODE, WRITER), END])))

    def _tap(self, place: str) -> int:
        """The number of an interface, which is described when it is first used."""
        if place not in self._taps:
            options = [option(NAME, place.encode("ascii")), option(RESOLUTION, b"\x09")]
            options += [option(FCS, self._fcs), END]
            block = pcapng.InterfaceDescriptionBlockLE(snaplen=LONGEST_FRAME, opts=options)
            self._file.write(bytes(block))
            self._taps[place] = len(self._taps)
        return self._taps[place]

    def write(self, time: int, place: str, frame: bytes, comments: list[str]) -> None:
        """A frame that came so many ns after 1970 to that place, with its comments."""
        options = [option(COMMENT, text.encode("ascii")) for text in comments]
        block = pcapng.EnhancedPacketBlockLE(
            iface_id=self._tap(place),
            ts_high=time >> 32,
            ts_low=time & 0xFFFF_FFFF,
            pkt_data=frame,
            opts=[*options, END] if options else [],
        )
        self._file.write(bytes(block))
