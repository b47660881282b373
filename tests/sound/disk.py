"""The volume's bytes, and the checksums of Btrfs."""

import hashlib
import os
import sys
from functools import lru_cache
from pathlib import Path

sys.path.insert(0, str(Path(__file__).resolve().parent.parent))
from crc32c import TABLE, crc32c, raw_crc  # noqa: E402

from .forms import SECTOR  # noqa: E402

CRC32C, SHA256 = 0, 2
WIDTH = {CRC32C: 4, SHA256: 32}
# for each of the four bytes of a register what each byte makes of it
LANES = [bytes(word >> 8 * lane & 0xFF for word in TABLE) for lane in range(4)]


class Disk:
    """A file or a device, opened for reading."""

    def __init__(self, path):
        self.file = open(path, "rb")  # pylint: disable=consider-using-with
        self.length = self.file.seek(0, os.SEEK_END)

    def read(self, at, length):
        """The bytes at a place, fewer where the disk ends."""
        if at >= self.length:
            return b""
        self.file.seek(at)
        return self.file.read(length)


# What was last seen is kept, for one volume that is judged again and again with little changed.
@lru_cache(512)
def checksum(kind, data):
    """The checksum of a node or superblock, as it stands in the first bytes of it."""
    if kind == SHA256:
        return hashlib.sha256(data).digest()
    return crc32c(data).to_bytes(4, "little")


@lru_cache(4)
def sector_sums(kind, data):
    """The checksum of each block of 4096 bytes."""
    count = len(data) // SECTOR
    if kind == SHA256:
        return [hashlib.sha256(data[SECTOR * i : SECTOR * (i + 1)]).digest() for i in range(count)]
    return crc32c_of_all(data, count)


def crc32c_of_all(data, count):
    """CRC-32C of all blocks side by side: the registers are four long numbers, with a byte for each block, and each
    step takes the next byte of every block."""
    if not count:
        return []
    ones = (1 << 8 * count) - 1
    lanes = [ones] * 4
    for at in range(SECTOR):
        column = int.from_bytes(data[at::SECTOR], "little")
        place = (lanes[0] ^ column).to_bytes(count, "little")
        step = [int.from_bytes(place.translate(table), "little") for table in LANES]
        lanes = [lanes[1] ^ step[0], lanes[2] ^ step[1], lanes[3] ^ step[2], step[3]]
    whole = [(lane ^ ones).to_bytes(count, "little") for lane in lanes]
    return [bytes(lane[i] for lane in whole) for i in range(count)]


def name_hash(name):
    """The hash under which a directory keeps a name."""
    return raw_crc(0xFFFFFFFE, name)


def extref_hash(directory, name):
    return raw_crc(directory & 0xFFFFFFFF, name)


def data_ref_hash(root, inode, offset):
    """The order of references to data inside of an item."""
    high = raw_crc(0xFFFFFFFF, root.to_bytes(8, "little"))
    low = raw_crc(0xFFFFFFFF, inode.to_bytes(8, "little") + offset.to_bytes(8, "little"))
    return high << 31 ^ low
