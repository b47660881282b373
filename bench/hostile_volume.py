#!/usr/bin/env python3
"""Writes a ReiserFS 3.6 volume that is hostile in size: hostile_volume.py KIND NUMBER FILE.

deep     a tree of the greatest height, 7, with so many leaves, each of which has one item
names    a directory with so many empty files, whose names share hashes: 90 names have one hash of Btrfs, 128 one of ReiserFS
links    a file with so many names in one directory, of which 90 have one hash of Btrfs, as entries and as further references
chain    so many directories, each in the one before
extents  a file of so many extents of one block, in no order on the disk and with a hole before each
long     so many empty files whose names have 255 bytes, a hundred in a directory, three directories deep with such names too

Blocks of data are holes of the image. Behind the used blocks there is room for the trees of a conversion.
"""
import itertools
import struct
import sys

from files_volume import (
    BLOCK,
    INDIRECT,
    JOURNAL_FIRST,
    STAT,
    WIDTH,
    Leaves,
    add_directory,
    blocks_from,
    end_volume,
    stat,
    writer_of,
)
from hash_names import names_of_one_hash

ROOT, FOLDER = (1, 2), (2, 3)
FIRST, JOURNAL = 4, 32
ONE_HASH, NAME = 90, 12
POINTERS = 1000


def file_stat(links, size=0, blocks=0):
    return stat(0o100644, links, size, blocks)


def crowded_names(count):
    """So many names of 12 bytes, 90 with one hash each."""
    names = []
    for number in range(-(-count // ONE_HASH)):
        names += names_of_one_hash(number * 2654435761 % (1 << 32), ONE_HASH, length=NAME)
    return names[:count]


def in_a_row():
    """Offsets one behind the other, so that 128 names have one hash of ReiserFS."""
    numbers = itertools.count(128)
    return lambda _: next(numbers)


def add_empty_files(leaves, folder, first, count):
    for number in range(count):
        leaves.add((folder[1], first + number), STAT, 0, 0xFFFF, file_stat(1))


class LeavesOfOne(Leaves):
    """Leaves of one item each."""

    def add(self, *item):
        super().add(*item)
        self.flush()

    def flush(self):
        if self.items:
            super().flush()


def deep(leaves, number):
    names = [((FOLDER[1], FIRST + i), b"%07d" % i) for i in range(number)]
    add_directory(leaves, FOLDER, ROOT, 2, names)
    add_empty_files(leaves, FOLDER, FIRST, number)
    return number


def names(leaves, number):
    listed = [((FOLDER[1], FIRST + i), name) for i, name in enumerate(crowded_names(number))]
    add_directory(leaves, FOLDER, ROOT, 2, listed, in_a_row())
    add_empty_files(leaves, FOLDER, FIRST, number)
    return number


def links(leaves, number):
    target = (FOLDER[1], FIRST)
    add_directory(leaves, FOLDER, ROOT, 2, [(target, name) for name in crowded_names(number)], in_a_row())
    leaves.add(target, STAT, 0, 0xFFFF, file_stat(number))
    return 1


def chain(leaves, number):
    parent, key = ROOT, FOLDER
    for i in range(number - 1):
        child = (key[1], FIRST + i)
        add_directory(leaves, key, parent, 3, [(child, b"d")])
        parent, key = key, child
    add_directory(leaves, key, parent, 2, [])
    return number


def extents(leaves, number):
    target = (FOLDER[1], FIRST)
    add_directory(leaves, FOLDER, ROOT, 2, [(target, b"extents")])
    places = list(itertools.islice(leaves.numbers, number))
    leaves.add(target, STAT, 0, 0xFFFF, file_stat(1, 2 * number * BLOCK, 8 * number))
    step = 7368787
    for first in range(0, number, POINTERS // 2):
        part = range(first, min(first + POINTERS // 2, number))
        pointers = [word for i in part for word in (0, places[i * step % number])]
        leaves.add(target, INDIRECT, 2 * first * BLOCK + 1, 0, struct.pack("<%dI" % len(pointers), *pointers))
    return 1


def long_name(number):
    return (b"%d-" % number).ljust(255, b"n")


def long(leaves, number):
    """Three directories, one in the other, and in the third a directory for each hundred files."""
    folders = -(-number // 100)
    second, third, first_file = (FOLDER[1], FIRST), (FIRST, FIRST + 1), FIRST + 2 + folders
    add_directory(leaves, FOLDER, ROOT, 3, [(second, long_name(0))])
    add_directory(leaves, second, FOLDER, 3, [(third, long_name(0))])
    add_directory(leaves, third, second, 2 + folders, [((third[1], FIRST + 2 + i), long_name(i)) for i in range(folders)])
    for i in range(folders):
        key, first = (third[1], FIRST + 2 + i), first_file + 100 * i
        here = min(100, number - 100 * i)
        add_directory(leaves, key, third, 2, [((key[1], first + f), long_name(100 * i + f)) for f in range(here)])
    for i in range(folders):
        add_empty_files(leaves, (third[1], FIRST + 2 + i), first_file + 100 * i, min(100, number - 100 * i))
    return 2 + folders + number


def main():
    kind, number, path = sys.argv[1], int(sys.argv[2]), sys.argv[3]
    made = {"deep": deep, "names": names, "links": links, "chain": chain, "extents": extents, "long": long}[kind]
    folder = {"long": long_name(1)}.get(kind, b"folder")
    with open(path, "wb") as out:
        leaves = (LeavesOfOne if kind == "deep" else Leaves)(writer_of(out), blocks_from(JOURNAL_FIRST + JOURNAL + 1))
        add_directory(leaves, ROOT, (0, 1), 3, [(FOLDER, folder)])
        count = made(leaves, number)
        width = next(w for w in range(2, WIDTH) if w**5 >= len(leaves.nodes)) if kind == "deep" else WIDTH
        end = end_volume(out, leaves, FIRST + count, 65536 + number // 2, width, JOURNAL)
    print("blocks", end, "leaves", len(leaves.nodes))


if __name__ == "__main__":
    main()
