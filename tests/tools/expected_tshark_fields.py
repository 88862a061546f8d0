"""Writes what tshark should report of the frames of a sound list, field by field, one frame a line.

    tests/tools/expected_tshark_fields.py LIST

The fields stand at their offsets in the line's digits; nothing of tools/ is used.
"""
import sys


def address(digits: str) -> str:
    """A MAC address as tshark writes it."""
    return ":".join(digits[n : n + 2] for n in range(0, 12, 2))


def dotted(digits: str) -> str:
    """An IPv4 address as tshark writes it."""
    return ".".join(str(byte) for byte in bytes.fromhex(digits))


def main() -> None:
    """A line of fields for each line of the list."""
    with open(sys.argv[1], encoding="ascii") as file:
        for line in file:
            _, time, _, _, digits = line.split()
            at = lambda offset, count: digits[2 * offset : 2 * (offset + count)]  # noqa: E731
            size = int(at(38, 2), 16) - 8
            print(
                f"{int(time) / 1e9:.9f}",
                address(at(0, 6)),
                address(at(6, 6)),
                1,
                1,
                dotted(at(26, 4)),
                dotted(at(30, 4)),
                int(at(34, 2), 16),
                int(at(36, 2), 16),
                at(42, size),
                sep="\t",
            )


main()
