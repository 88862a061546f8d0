"""Writes recordings as few programs write them, all with the same two frames a microsecond apart.

    tests/tools/odd_recordings.py FOLDER HEX

FOLDER/big.pcapng   high byte first, two interfaces with times in ns and in 2^-20 s, an offset of
                    5 s on both, 4 bytes of check sequence said by one
FOLDER/sections.pcapng  two sections, whose interfaces have other names and units; frames with
                        comments, flags and a drop count
FOLDER/long.pcapng  an interface with a name of 65,535 bytes
FOLDER/big.pcap     high byte first, times in us
FOLDER/cut.pcap     the second frame was cut
FOLDER/wifi.pcap    not Ethernet
FOLDER/three.pcapng     three interfaces
FOLDER/comment.pcapng   names and comments that aren't UTF-8
FOLDER/claims.pcapng    a frame that says that it is longer than its block
FOLDER/nothing.pcapng   an interface with an option of no bytes
FOLDER/option.pcapng    an interface with an option that is longer than its block
FOLDER/order.pcapng     a section in no order of bytes
HEX are the bytes of the frames.
"""
import os
import struct
import sys

SECOND = 1_700_000_000


def block(kind: int, body: bytes) -> bytes:
    """A pcapng block, high byte first."""
    body += b"\0" * (-len(body) % 4)
    size = struct.pack(">I", len(body) + 12)
    return struct.pack(">I", kind) + size + body + size


def option(code: int, data: bytes) -> bytes:
    """An option of a block."""
    return struct.pack(">HH", code, len(data)) + data + b"\0" * (-len(data) % 4)


def packet(place: int, ticks: int, frame: bytes, claimed: int = 0, options: bytes = b"") -> bytes:
    """An enhanced packet block; the frame's length is said to be another where one is claimed."""
    size = claimed or len(frame)
    head = struct.pack(">IIIII", place, ticks >> 32, ticks & 0xFFFF_FFFF, size, size)
    return block(6, head + frame + b"\0" * (-len(frame) % 4) + options)


def section(order: int = 0x1A2B3C4D) -> bytes:
    """The block with which a section begins."""
    return block(0x0A0D0D0A, struct.pack(">IHHq", order, 1, 0, -1))


def interface(options: bytes = b"") -> bytes:
    """The description of an interface whose frames end with check sequences, times in us."""
    return block(1, struct.pack(">HHI", 1, 0, 0) + option(13, b"\x04") + options)


def odd_pcapngs(frame: bytes) -> dict[str, bytes]:
    """Files of one section each, of which the last four are damaged."""
    us = SECOND * 10**6
    packets = [packet(place, us + place, frame) for place in range(3)]
    comment = option(1, b"\xff\xfe") + option(0, b"")
    return {
        "three.pcapng": section() + 3 * interface() + b"".join(packets),
        "comment.pcapng": section()
        + interface(option(1, b"\x80\0") + option(2, b"\xc3") + option(0, b""))
        + packet(0, us, frame, options=comment),
        "claims.pcapng": section() + interface() + packet(0, us, frame, len(frame) + 9),
        "nothing.pcapng": section() + interface(option(9, b"")) + packets[0],
        "option.pcapng": section() + interface(struct.pack(">HH", 2, 900) + b"name") + packets[0],
        "order.pcapng": section(0x1A2B3C00) + interface() + packets[0],
    }


def pcapng(frame: bytes) -> bytes:
    """Two interfaces; the second frame comes a microsecond later, rounded to 2^-20 s."""
    offset = option(14, struct.pack(">q", 5)) + option(0, b"")
    first = struct.pack(">HHI", 1, 0, 0) + option(9, b"\x09") + option(13, b"\x04") + offset
    second = struct.pack(">HHI", 1, 0, 0) + option(9, b"\x94") + option(13, b"\x04") + offset
    return b"".join(
        [
            section(),
            block(1, first),
            block(1, second),
            packet(0, SECOND * 10**9, frame),
            block(0xBAD, b"what no one knows"),
            packet(1, SECOND * 2**20 + 1, frame),
        ]
    )


def sections(frame: bytes) -> bytes:
    """Three frames in two sections. The first section has times in us, the other in ns."""
    us = SECOND * 10**6
    options = option(1, b"seen") + option(2, struct.pack(">I", 1))
    options += option(4, struct.pack(">Q", 3)) + option(1, b"again") + option(0, b"")
    return b"".join(
        [
            section() + interface(option(2, b"eth0")) + interface(option(2, b"eth1")),
            packet(0, us, frame, options=options) + packet(1, us + 1000, frame),
            section() + interface(option(9, b"\x09") + option(2, b"eth2")),
            packet(0, (us + 2000) * 1000 + 7, frame),
        ]
    )


def pcap(frame: bytes, link_type: int, caught: int) -> bytes:
    """Two frames with times in us, of the second only so many bytes."""
    head = struct.pack(">IHHIIII", 0xA1B2C3D4, 2, 4, 0, 0, 65535, link_type)
    first = struct.pack(">IIII", SECOND, 999_999, len(frame), len(frame)) + frame
    second = struct.pack(">IIII", SECOND + 1, 0, caught, len(frame)) + frame[:caught]
    return head + first + second


def main() -> None:
    """Writes them."""
    folder, frame = sys.argv[1], bytes.fromhex(sys.argv[2])
    files = {
        "big.pcapng": pcapng(frame),
        "sections.pcapng": sections(frame),
        "long.pcapng": section()
        + interface(option(2, b"<\x1b>" * 21_845))
        + packet(0, SECOND * 10**6, frame),
        "big.pcap": pcap(frame, 1, len(frame)),
        "cut.pcap": pcap(frame, 1, 60),
        "wifi.pcap": pcap(frame, 105, len(frame)),
        **odd_pcapngs(frame),
    }
    for name, data in files.items():
        with open(os.path.join(folder, name), "wb") as file:
            file.write(data)


main()
