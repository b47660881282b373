#!/usr/bin/env python3
"""Writes a ReiserFS 3.6 volume of many files, and the same files into a folder: files_volume.py DIRECTORIES FOLDER FILE [FREE].

Each directory of the root has 200 files: a quarter below 2000 bytes, the others up to 9, 30 and 64 kB, so 14 kB on average;
350 directories make 70,000 files and about 1 GB. The last bytes of a small file are a tail, if they are at most 2000.
FREE is how many blocks behind all of it are free, none where it is not given.
"""
import random
import struct
import sys
from pathlib import Path

BLOCK = 4096
FILES = 200
TAIL = 2000
JOURNAL_FIRST, JOURNAL_SIZE = 18, 8192
STAT, INDIRECT, DIRECT, ENTRIES = 0, 1, 2, 500
# Items of the older form, by what their keys have in place of a kind.
OLD_STAT, OLD_INDIRECT, OLD_DIRECT = 1 << 32, 0xFFFFFFFE, 0xFFFFFFFF
ROOM = BLOCK - 24
WIDTH = 170


def blocks_from(first):
    """The numbers of blocks from a first one on, but for bitmap blocks."""
    while True:
        if first % 32768:
            yield first
        first += 1


def r5(name):
    """The offset of a name's entry in its directory."""
    value = 0
    for byte in name:
        # a byte from 128 on counts as a negative one
        signed = byte - 256 if byte > 127 else byte
        value = (value + (signed << 4) + (signed >> 4)) * 11 & 0xFFFFFFFF
    value &= 0x7FFFFF80
    return value or 128


def stat(mode, links, size, blocks):
    return struct.pack("<HHIQIIIIIII", mode, 0, links, size, 1000, 100, 1, 1, 1, blocks, 0)


def head(key, kind, offset, count, length, location):
    """The head of an item; directory items have keys of the older form."""
    if kind >= ENTRIES:
        return struct.pack("<IIIIHHHH", *key, offset, kind & 0xFFFFFFFF, count, length, location, 0)
    return struct.pack("<IIQHHHH", *key, offset | kind << 60, count, length, location, 1)


def directory_items(key, parent, names, place=r5):
    """The items of a directory: its entries by their offsets, so many to an item as fill a leaf."""
    entries = [(1, key, b"."), (2, parent, b"..")]
    taken = set()
    listed = []
    for target, name in names:
        offset = place(name)
        while offset in taken:
            offset += 1
        taken.add(offset)
        listed.append((offset, target, name))
    entries += sorted(listed)
    entries.reverse()
    while entries:
        part, size = [], 0
        while entries and size + 16 + (len(entries[-1][2]) + 7) // 8 * 8 <= ROOM - 24:
            size += 16 + (len(entries[-1][2]) + 7) // 8 * 8
            part.append(entries.pop())
        heads, areas, end = b"", b"", size
        for offset, target, name in part:
            area = name + bytes(-len(name) % 8)
            end -= len(area)
            heads += struct.pack("<IIIHH", offset, *target, end, 4)
            areas = area + areas
        yield key, ENTRIES, part[0][0], len(part), heads + areas


class Leaves:
    """Puts items into leaves, which are written as they fill."""

    def __init__(self, write, numbers):
        self.write, self.numbers, self.nodes, self.items, self.left = write, numbers, [], [], ROOM

    def add(self, key, kind, offset, count, body):
        if 24 + len(body) > self.left:
            self.flush()
        self.items.append((key, kind, offset, count, body))
        self.left -= 24 + len(body)

    def flush(self):
        block, heads, end = bytearray(BLOCK), b"", BLOCK
        for key, kind, offset, count, body in self.items:
            end -= len(body)
            block[end : end + len(body)] = body
            heads += head(key, kind, offset, count, len(body), end)
        struct.pack_into("<HHH", block, 0, 1, len(self.items), self.left)
        block[24 : 24 + len(heads)] = heads
        number = next(self.numbers)
        self.nodes.append((number, BLOCK - 24 - self.left, heads[:16]))
        self.write(number, block)
        self.items, self.left = [], ROOM


def add_directory(leaves, key, parent, links, names, place=r5):
    """Adds the items of a directory with these names, whose offsets a function gives."""
    items = list(directory_items(key, parent, names, place))
    size = sum(len(item[4]) for item in items)
    leaves.add(key, STAT, 0, 0xFFFF, stat(0o40755, links, size, (size + 511) // 512))
    for item in items:
        leaves.add(*item)


def inner_levels(nodes, write, numbers, width=WIDTH):
    """The nodes above the leaves: at most `width` children each, none with one alone. Answers the root and its level."""
    level = 1
    while len(nodes) > 1:
        level += 1
        parts = [nodes[i : i + width] for i in range(0, len(nodes), width)]
        if len(parts[-1]) == 1:
            parts[-1].insert(0, parts[-2].pop())
        nodes = []
        for part in parts:
            block, keys = bytearray(BLOCK), len(part) - 1
            used = 16 * keys + 8 * len(part)
            struct.pack_into("<HHH", block, 0, level, keys, BLOCK - 24 - used)
            block[24 : 24 + 16 * keys] = b"".join(first for _, _, first in part[1:])
            for i, (child, size, _) in enumerate(part):
                struct.pack_into("<IHH", block, 24 + 16 * keys + 8 * i, child, size, 0)
            number = next(numbers)
            nodes.append((number, used, part[0][2]))
            write(number, block)
    return nodes[0][0], level


def write_system(write, end, root, height, first_free, blocks, journal=JOURNAL_SIZE):
    """The bitmap and the superblock of a volume of so many blocks, whose used blocks are those below `end` and the bitmap
    blocks."""
    bitmaps = (blocks - 1) // 32768 + 1
    for bitmap in range(bitmaps):
        first = bitmap * 32768
        used = min(max(end - first, 1), 32768) if first < end or bitmap else end
        bits = bytearray(b"\xff" * (used // 8)) + bytearray([(1 << used % 8) - 1] if used % 8 else [])
        bits += bytes(BLOCK - len(bits))
        # what lies behind the volume is marked too
        for block in range(min(blocks - first, 32768), 32768):
            bits[block // 8] |= 1 << block % 8
        write(17 if bitmap == 0 else first, bits)
    free = blocks - end - sum(1 for bitmap in range(1, bitmaps) if bitmap * 32768 >= end)
    write_superblock(write, blocks, free, root, height, first_free, journal)


def write_superblock(write, blocks, free, root, height, first_free, journal=JOURNAL_SIZE):
    """The superblock of a volume of so many blocks, whose objects have numbers below `first_free`."""
    block = bytearray(BLOCK)
    struct.pack_into("<IIIIII", block, 0, blocks, free, root, JOURNAL_FIRST, 0, journal)
    struct.pack_into("<IIIII", block, 24, 1024, 0, 900, 30, 30)
    struct.pack_into("<HHHH", block, 44, BLOCK, 972, 2, 1)
    block[52:62] = b"ReIsEr2Fs\0"
    struct.pack_into("<HIHHH", block, 62, 0, 3, height, (blocks - 1) // 32768 + 1, 2)
    struct.pack_into("<II", block, 204, 1, first_free)
    write(16, block)


def write_journal_header(write, journal=JOURNAL_SIZE):
    """The header behind a journal whose transactions were all written back, the last of them before the start of the log. Without it a reader has to
    look through the log."""
    header = struct.pack("<IIIIIIIIIII", 1, 0, 1, JOURNAL_FIRST, 0, journal, 1024, 0, 900, 30, 30)
    write(JOURNAL_FIRST + journal, header.ljust(BLOCK, b"\0"))


def writer_of(out):
    """What writes a block of a volume into a file, by its number."""

    def write(number, block):
        out.seek(number * BLOCK)
        out.write(block)

    return write


def end_volume(out, leaves, first_free, spare=0, width=WIDTH, journal=JOURNAL_SIZE):
    """Writes the last leaf, the nodes above the leaves and the system blocks, with so many free blocks behind. Answers the
    number of blocks before these."""
    leaves.flush()
    root, level = inner_levels(leaves.nodes, leaves.write, leaves.numbers, width)
    end = next(leaves.numbers)
    write_system(leaves.write, end, root, level + 1, first_free, end + spare, journal)
    out.truncate((end + spare) * BLOCK)
    return end


def main():
    directories, folder, path = int(sys.argv[1]), Path(sys.argv[2]), sys.argv[3]
    spare = int(sys.argv[4]) if len(sys.argv) > 4 else 0
    draw = random.Random(7)
    data = draw.randbytes(1 << 20)
    first_file = 3 + directories
    numbers = blocks_from(JOURNAL_FIRST + JOURNAL_SIZE + 1)
    with open(path, "wb") as out:
        write = writer_of(out)
        leaves = Leaves(write, numbers)
        root = (1, 2)
        add_directory(leaves, root, (0, 1), directories + 2, [((2, 3 + d), b"d%04d" % d) for d in range(directories)])
        for d in range(directories):
            names = [((3 + d, first_file + d * FILES + f), b"file%05d.dat" % (d * FILES + f)) for f in range(FILES)]
            add_directory(leaves, (2, 3 + d), root, 2, names)
        total = 0
        for d in range(directories):
            (folder / ("d%04d" % d)).mkdir(parents=True, exist_ok=True)
            for f in range(FILES):
                number = d * FILES + f
                low, high = ((0, 2000), (2000, 9000), (4096, 64000), (4096, 30000))[draw.randrange(4)]
                at, size = draw.randrange(900000), draw.randrange(low, high)
                body = data[at : at + size]
                total += size
                (folder / ("d%04d" % d) / ("file%05d.dat" % number)).write_bytes(body)
                key = (3 + d, first_file + number)
                whole = size // BLOCK if size < 16384 and size % BLOCK <= TAIL else -(-size // BLOCK)
                places = [next(numbers) for _ in range(whole)]
                for place in range(whole):
                    write(places[place], body[place * BLOCK : (place + 1) * BLOCK].ljust(BLOCK, b"\0"))
                leaves.add(key, STAT, 0, 0xFFFF, stat(0o100644, 1, size, 8 * (whole + (size > whole * BLOCK))))
                if whole:
                    leaves.add(key, INDIRECT, 1, 0, struct.pack("<%dI" % whole, *places))
                if size > whole * BLOCK:
                    leaves.add(key, DIRECT, whole * BLOCK + 1, 0xFFFF, body[whole * BLOCK :])
        end = end_volume(out, leaves, first_file + directories * FILES, spare)
    print("blocks", end, "leaves", len(leaves.nodes), "files", directories * FILES, "bytes", total)


if __name__ == "__main__":
    main()
