#!/usr/bin/env python3
"""Writes a ReiserFS 3.6 volume with something that is rare: rare_volume.py KIND FILE.

links    a file with 65,536 names in one directory
names    a directory with 100,000 empty files
sparse   a file of 2^44 bytes of which only the last block is there
terabyte the same of 2^40 bytes
large    a file of 2 GiB, whose blocks are holes of FILE
removed  a file that was removed and is still to be cleaned up
taken    a directory of the root whose name a conversion needs
long     a file whose name has 256 bytes
crowd    32 files whose names have one hash of Btrfs, which are too many for it
alike    9 files whose names have one hash of Btrfs
copied   a file in the block where the first copy of a Btrfs superblock belongs, and a superblock that its map of objects fills
"""
import struct
import sys
from pathlib import Path

sys.path.insert(0, str(Path(__file__).resolve().parent.parent / "bench"))
from files_volume import (  # noqa: E402
    BLOCK,
    DIRECT,
    INDIRECT,
    JOURNAL_FIRST,
    JOURNAL_SIZE,
    STAT,
    Leaves,
    add_directory,
    blocks_from,
    end_volume,
    stat,
    writer_of,
)
from hash_names import names_of_one_hash  # noqa: E402

ROOT, FOLDER = (1, 2), (2, 3)
FIRST_FILE = 4
# Behind the used blocks there is room for the trees of a conversion.
FREE = 32768
# The block of the first copy of a Btrfs superblock, and how many numbers the map of a ReiserFS superblock has at most.
COPY, MAP = 16384, 972


def links(leaves):
    """One object, named 65,536 times."""
    target = (FOLDER[1], FIRST_FILE)
    add_directory(leaves, FOLDER, ROOT, 2, [(target, b"name%05d" % i) for i in range(65536)])
    leaves.add(target, STAT, 0, 0xFFFF, stat(0o100644, 65536, 0, 0))
    return 1


def names(leaves):
    """100,000 objects in one directory."""
    targets = [(FOLDER[1], FIRST_FILE + i) for i in range(100000)]
    add_directory(leaves, FOLDER, ROOT, 2, [(target, b"file%06d" % i) for i, target in enumerate(targets)])
    for target in targets:
        leaves.add(target, STAT, 0, 0xFFFF, stat(0o100644, 1, 0, 0))
    return len(targets)


def last_block(leaves, name, size):
    """One pointer, to the last of the file's blocks."""
    target = (FOLDER[1], FIRST_FILE)
    add_directory(leaves, FOLDER, ROOT, 2, [(target, name)])
    place = next(leaves.numbers)
    leaves.write(place, b"\x5a" * BLOCK)
    leaves.add(target, STAT, 0, 0xFFFF, stat(0o100644, 1, size, 8))
    leaves.add(target, INDIRECT, size - BLOCK + 1, 0, struct.pack("<I", place))
    return 1


def sparse(leaves):
    return last_block(leaves, b"sparse", 1 << 44)


def terabyte(leaves):
    return last_block(leaves, b"terabyte", 1 << 40)


def large(leaves):
    """A pointer to each of 2^19 blocks, a leaf full in an item."""
    target, blocks, most = (FOLDER[1], FIRST_FILE), 1 << 19, 1000
    add_directory(leaves, FOLDER, ROOT, 2, [(target, b"large")])
    leaves.add(target, STAT, 0, 0xFFFF, stat(0o100644, 1, blocks * BLOCK, blocks * 8))
    for first in range(0, blocks, most):
        places = [next(leaves.numbers) for _ in range(min(most, blocks - first))]
        leaves.add(target, INDIRECT, first * BLOCK + 1, 0, struct.pack(f"<{len(places)}I", *places))
    return 1


def removed(leaves):
    """An empty directory, and the item that tells of a file to be removed, behind all others."""
    add_directory(leaves, FOLDER, ROOT, 2, [])
    leaves.add((0xFFFFFFFF, FIRST_FILE), DIRECT, BLOCK + 1, 0xFFFF, struct.pack("<I", FOLDER[1]))
    return 1


def taken(leaves):
    """An empty directory."""
    add_directory(leaves, FOLDER, ROOT, 2, [])
    return 0


def files(leaves, listed):
    """Empty files with these names."""
    targets = [(FOLDER[1], FIRST_FILE + i) for i in range(len(listed))]
    add_directory(leaves, FOLDER, ROOT, 2, list(zip(targets, listed)))
    for target in targets:
        leaves.add(target, STAT, 0, 0xFFFF, stat(0o100644, 1, 0, 0))
    return len(targets)


def long(leaves):
    return files(leaves, [b"x" * 256])


def crowd(leaves):
    return files(leaves, names_of_one_hash(7, 32, length=250))


def alike(leaves):
    return files(leaves, names_of_one_hash(7, 9))


def copied(leaves):
    """The blocks before that one are used, and nothing names them."""
    while next(leaves.numbers) < COPY - 1:
        pass
    return last_block(leaves, b"copied", BLOCK)


def fill_map(out):
    """Gives a volume a map of as many numbers of objects as its superblock has place for: 77 of them would fill its first 512 bytes."""
    out.seek(16 * BLOCK + 48)
    out.write(struct.pack("<H", MAP))
    out.seek(16 * BLOCK + 204)
    out.write(struct.pack(f"<{MAP}I", *range(1, 3 * MAP, 3)))


KINDS = {it.__name__: it for it in (links, names, sparse, terabyte, large, removed, taken, long, crowd, alike, copied)}


def main():
    kind, path = sys.argv[1:]
    numbers = blocks_from(JOURNAL_FIRST + JOURNAL_SIZE + 1)
    with open(path, "wb") as out:
        leaves = Leaves(writer_of(out), numbers)
        add_directory(leaves, ROOT, (0, 1), 3, [(FOLDER, b"reiserfs_saved" if kind == "taken" else b"folder")])
        count = KINDS[kind](leaves)
        end_volume(out, leaves, FIRST_FILE + count, FREE)
        if kind == "copied":
            fill_map(out)


main()
