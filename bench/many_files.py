#!/usr/bin/env python3
"""Writes a ReiserFS 3.6 volume to measure growth by: many_files.py KIND NUMBER FILE.

files      so many files, 200 in a directory
directory  so many files in one directory
extents    one file of so many blocks, each of which is an extent, since no two that follow each other in the file do
           so on the disk

A quarter of the files has a tail of 100 to 1999 bytes, the others have one to three blocks in a row. The blocks of data
are holes of the image. Behind the used blocks there is room for the trees of a conversion. `reiserfsck --check` finds
no corruption in such a volume.
"""
import itertools
import math
import random
import struct
import sys

from files_volume import (
    BLOCK,
    DIRECT,
    FILES,
    INDIRECT,
    JOURNAL_FIRST,
    JOURNAL_SIZE,
    STAT,
    Leaves,
    add_directory,
    blocks_from,
    end_volume,
    stat,
    write_journal_header,
    writer_of,
)

ROOT = (1, 2)
FIRST = 3
# how many pointers an item has
POINTERS = 1000


def name_of(number):
    """A name by which few entries of a directory share their offset: the digits are mixed."""
    return b"%08x.dat" % (number * 2654435761 % (1 << 32))


def add_file(leaves, key, draw):
    """A file with a tail, or with a few blocks in a row."""
    if draw.randrange(4) == 0:
        size = draw.randrange(100, 2000)
        leaves.add(key, STAT, 0, 0xFFFF, stat(0o100644, 1, size, 8))
        leaves.add(key, DIRECT, 1, 0xFFFF, b"t" * size + bytes(-size % 8))
        return
    places = [next(leaves.numbers) for _ in range(draw.randrange(1, 4))]
    leaves.add(key, STAT, 0, 0xFFFF, stat(0o100644, 1, len(places) * BLOCK - draw.randrange(1000), 8 * len(places)))
    leaves.add(key, INDIRECT, 1, 0, struct.pack("<%dI" % len(places), *places))


def add_files(leaves, number, in_one):
    """Directories of the root, and so many files in each. Answers the first object id that is free."""
    count = -(-number // in_one)
    folders, first = [(ROOT[1], FIRST + i) for i in range(count)], FIRST + count
    draw = random.Random(7)
    add_directory(leaves, ROOT, (0, 1), 2 + count, [(folder, b"d%06d" % i) for i, folder in enumerate(folders)])
    parts = [range(i * in_one, min((i + 1) * in_one, number)) for i in range(count)]
    for folder, part in zip(folders, parts):
        add_directory(leaves, folder, ROOT, 2, [((folder[1], first + i), name_of(i)) for i in part])
    for folder, part in zip(folders, parts):
        for i in part:
            add_file(leaves, (folder[1], first + i), draw)
    return first + number


def add_extents(leaves, number):
    """One file in the root, and its blocks in an order without neighbours. Answers the first object id that is free."""
    key = (ROOT[1], FIRST)
    add_directory(leaves, ROOT, (0, 1), 2, [(key, b"extents")])
    leaves.add(key, STAT, 0, 0xFFFF, stat(0o100644, 1, number * BLOCK, 8 * number))
    places = list(itertools.islice(leaves.numbers, number))
    step = next(it for it in itertools.count(number // 3 + 2) if math.gcd(it, number) == 1)
    for first in range(0, number, POINTERS):
        part = [places[i * step % number] for i in range(first, min(first + POINTERS, number))]
        leaves.add(key, INDIRECT, first * BLOCK + 1, 0, struct.pack("<%dI" % len(part), *part))
    return FIRST + 1


def main():
    kind, number, path = sys.argv[1], int(sys.argv[2]), sys.argv[3]
    with open(path, "wb") as out:
        leaves = Leaves(writer_of(out), blocks_from(JOURNAL_FIRST + JOURNAL_SIZE + 1))
        if kind == "extents":
            free = add_extents(leaves, number)
        else:
            free = add_files(leaves, number, {"files": FILES, "directory": number}[kind])
        write_journal_header(leaves.write)
        end = end_volume(out, leaves, free, 32768 + number)
    print("blocks", end, "leaves", len(leaves.nodes))


if __name__ == "__main__":
    main()
