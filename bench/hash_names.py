"""Names of directory entries that share one hash of Btrfs: a name's last four bytes can give it any checksum."""

import sys
from pathlib import Path

sys.path.insert(0, str(Path(__file__).resolve().parent.parent / "tests"))
from crc32c import TABLE, raw_crc  # noqa: E402

START = 0xFFFFFFFE
# The byte whose checksum begins with these eight bits.
BY_TOP = {value >> 24: byte for byte, value in enumerate(TABLE)}


def ending(register, wanted):
    """The four bytes that lead from one register to another."""
    indices = []
    for _ in range(4):
        index = BY_TOP[wanted >> 24]
        indices.append(index)
        wanted = (wanted ^ TABLE[index]) << 8 & 0xFFFFFFFF
    data = bytearray()
    for index in reversed(indices):
        data.append((register ^ index) & 0xFF)
        register = register >> 8 ^ TABLE[index]
    return bytes(data)


def names_of_one_hash(wanted, count, start=START, length=0):
    """So many names with one hash, whose first bytes are their number, filled up to a length. `start` is the register before
    a name."""
    names, number = [], 0
    while len(names) < count:
        head = (b"%x-" % number).ljust(length - 4, b"x")
        number += 1
        tail = ending(raw_crc(start, head), wanted)
        if b"/" not in tail and b"\0" not in tail:
            names.append(head + tail)
    return names
