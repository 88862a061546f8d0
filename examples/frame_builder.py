"""Builds the frames of end systems, byte by byte, as docs/FORMATS.md lays them out.

For scripts that write frame lists: make_bench.py beside this file, the tests, the measurements.
Nothing is taken from the program or its tools.
"""
import zlib

AROUND = 47  # bytes of a frame beside payload and padding, check sequence included
SHORTEST = 64  # bytes of the shortest frame
SIDES = {"A": b"\x20", "B": b"\x40"}  # the last byte of a source address


def two(number: int) -> bytes:
    """A number as two bytes, high byte first."""
    return number.to_bytes(2, "big")


def header_checksum(header: bytes) -> int:
    """The ones' complement of the ones' complement sum of the header's 16-bit words."""
    total = sum(int.from_bytes(header[at : at + 2], "big") for at in range(0, len(header), 2))
    while total > 0xFFFF:
        total = (total & 0xFFFF) + (total >> 16)
    return total ^ 0xFFFF


def ip_header(ident: int, partition: int, vl: int, size: int, **changes: int) -> bytes:
    """The IPv4 header of a payload of so many bytes; the changes are those of `frame_of`."""
    front = b"\x45\x00" + two(28 + size) + two(0) + two(changes.get("flags", 0)) + b"\x01"
    front += bytes([changes.get("protocol", 17)])
    ends = b"\x0a" + two(ident) + bytes([partition]) + b"\xe0\xe0" + two(vl)
    checksum = header_checksum(front + ends) + changes.get("checksum", 0)
    return front + two(checksum & 0xFFFF) + ends


def frame_of(
    ident: int,
    partition: int,
    vl: int,
    payload: bytes,
    number: int,
    side: str,
    udp: int,
    least: int = SHORTEST,
    **changes,
) -> bytes:
    """A frame without its check sequence, as the end system `ident` builds it, but for the changes.

    `number` is its sequence number, `udp` both UDP ports, `least` the link's Lmin. The changes are
    values of fields: ether_type, flags, protocol, checksum (added to the right one), udp_length,
    address.
    """
    address = changes.pop("address", b"\x03\x00\x00\x00" + two(vl))
    ether_type = changes.pop("ether_type", 0x0800)
    udp_length = changes.pop("udp_length", 8 + len(payload))
    frame = address + b"\x02\x00\x00" + two(ident) + SIDES[side] + two(ether_type)
    frame += ip_header(ident, partition, vl, len(payload), **changes)
    frame += two(udp) + two(udp) + two(udp_length) + two(0) + payload
    return frame.ljust(max(least, SHORTEST) - 5, b"\x00") + bytes([number])


def sealed(frame: bytes) -> bytes:
    """A frame with its check sequence, least significant byte first."""
    return frame + zlib.crc32(frame).to_bytes(4, "little")
