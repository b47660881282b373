"""A small ReiserFS volume with one of everything: objects of each kind and of both versions, names of one hash, names of a file in
many directories, files with holes, tails and more than one item, deep directories, and what is rare."""

import random
import struct
import sys
from pathlib import Path

sys.path.insert(0, str(Path(__file__).resolve().parent.parent.parent / "bench"))
from files_volume import (  # noqa: E402
    BLOCK,
    DIRECT,
    ENTRIES,
    INDIRECT,
    JOURNAL_FIRST,
    OLD_DIRECT,
    OLD_INDIRECT,
    OLD_STAT,
    STAT,
    Leaves,
    blocks_from,
    directory_items,
    inner_levels,
    stat,
    write_system,
    writer_of,
)
from hash_names import names_of_one_hash  # noqa: E402

JOURNAL = 24
ROOT = (1, 2)
MIRROR = 16384
ORDER = {STAT: 0, OLD_STAT: 0, INDIRECT: 1, OLD_INDIRECT: 1, DIRECT: 2, OLD_DIRECT: 2, ENTRIES: 3}
FILE, FOLDER, LINK = 0o100644, 0o40755, 0o120777


def old_stat(mode, links, size, last):
    """Stat data of 32 bytes; the last field is a device's number, or a number of blocks."""
    return struct.pack("<HHHHIIIIII", mode, links, 1000, 100, size, 1, 2, 3, last, 0xFFFFFFFF)


class Tree:
    """The items of a volume, in any order, and the names of its directories."""

    def __init__(self, out, numbers, draw):
        self.write_block, self.numbers, self.draw, self.used = writer_of(out), numbers, draw, []
        self.items, self.names, self.parents, self.next = [], {ROOT: []}, {ROOT: (0, 1)}, 3

    def write(self, number, block):
        self.used.append(number)
        self.write_block(number, block)

    def new(self, folder, *names):
        """A key for an object of these names in a folder."""
        key = (folder[1], self.next)
        self.next += 1
        for name in names:
            self.names[folder].append((key, name))
        return key

    def put(self, key, kind, offset, body):
        count = 0 if kind in (INDIRECT, OLD_INDIRECT) else 0xFFFF
        self.items.append((key, kind, offset, count, body))

    def folder(self, parent, name):
        key = self.new(parent, name)
        self.names[key], self.parents[key] = [], parent
        return key

    def blocks(self, count):
        """So many new blocks of data."""
        places = [next(self.numbers) for _ in range(count)]
        for place in places:
            self.write(place, self.draw.randbytes(BLOCK))
        return places

    def file(self, folder, name, size, pointers=(), tail=b"", first=0, old=False, links=1):
        """A regular file: pointers from a block on, and direct bytes behind them."""
        key = self.new(folder, name)
        kinds = (OLD_STAT, OLD_INDIRECT, OLD_DIRECT) if old else (STAT, INDIRECT, DIRECT)
        blocks = 8 * (sum(1 for p in pointers if p) + bool(tail))
        self.put(key, kinds[0], 0, old_stat(FILE, links, size, blocks) if old else stat(FILE, links, size, blocks))
        if pointers:
            self.put(key, kinds[1], first * BLOCK + 1, struct.pack("<%dI" % len(pointers), *pointers))
        if tail:
            self.put(key, kinds[2], (first + len(pointers)) * BLOCK + 1, tail)
        return key

    def link(self, folder, name, target):
        key = self.new(folder, name)
        self.put(key, STAT, 0, stat(LINK, 1, len(target), 1))
        for at in range(0, len(target), 1000):
            self.put(key, OLD_DIRECT, at + 1, target[at : at + 1000])

    def special(self, folder, name, mode, device, old=False):
        key = self.new(folder, name)
        body = old_stat(mode, 1, 0, device) if old else stat(mode, 1, 0, 0)[:40] + struct.pack("<I", device)
        self.put(key, OLD_STAT if old else STAT, 0, body)

    def leaves(self):
        """All items in the order of their keys, with those of the directories."""
        for key, names in self.names.items():
            made = list(directory_items(key, self.parents[key], names))
            self.put(key, STAT, 0, stat(FOLDER, 2, sum(len(item[4]) for item in made), 1))
            self.items += made
        leaves = Leaves(self.write, self.numbers)
        for item in sorted(self.items, key=lambda item: (*item[0], item[2], ORDER[item[1]])):
            leaves.add(*item)
        return leaves


def add_files(tree, folder):
    """A file of each form."""
    draw = tree.draw
    tree.file(folder, b"empty", 0)
    tree.file(folder, b"tail", 700, tail=draw.randbytes(700))
    tree.file(folder, b"longer-tail", 500, tail=draw.randbytes(704))
    tree.file(folder, b"whole", 3 * BLOCK, tree.blocks(3))
    tree.file(folder, b"both", 2 * BLOCK + 90, tree.blocks(2), draw.randbytes(90))
    tree.file(folder, b"backwards", 6 * BLOCK - 7, tree.blocks(6)[::-1])
    tree.file(folder, b"holes", 8 * BLOCK, [p for place in tree.blocks(4) for p in (0, place)])
    tree.file(folder, b"all-hole", 1 << 30)
    tree.file(folder, b"past-size", BLOCK, tree.blocks(4))
    tree.file(folder, b"far", 1 << 44, tree.blocks(1), first=(1 << 32) - 1)
    tree.file(folder, b"old", 2 * BLOCK + 33, tree.blocks(2), draw.randbytes(33), old=True)
    tree.file(folder, b"old-tail", 100, tail=draw.randbytes(100), old=True)
    key = tree.file(folder, b"items", 40 * BLOCK, tree.blocks(10))
    tree.put(key, INDIRECT, 20 * BLOCK + 1, struct.pack("<10I", *tree.blocks(10)))
    key = tree.file(folder, b"two-tails", 2 * BLOCK + 40, tree.blocks(1), draw.randbytes(50))
    tree.put(key, DIRECT, 2 * BLOCK + 1, draw.randbytes(40))
    tree.file(folder, b"large", 120 * BLOCK, tree.blocks(120))
    for i in range(16):
        tree.file(folder, b"%04d" % (i * 7919 % 10000), 30 * i, tail=draw.randbytes(30 * i))


def add_names(tree, folder):
    """Names of one hash, long names, odd bytes, and many names of one file in two folders."""
    for name in names_of_one_hash(0x12345678, 12, length=20) + [b"n" * 255, b"\xff\xfe\t", b"a\\b", b"x", b"spa ce"]:
        tree.file(folder, name, 1, tail=b"%")
    one, other = tree.folder(folder, b"one"), tree.folder(folder, b"other")
    key = tree.file(one, b"first", 5, tail=b"hello", links=51)
    for i in range(40):
        tree.names[one].append((key, b"again-%03d" % i + b"y" * 120))
    for i in range(10):
        tree.names[other].append((key, b"%03d" % i))
    deep = folder
    for i in range(12):
        deep = tree.folder(deep, b"deep%d" % i)


def add_rare(tree, folder):
    """Kinds that are no files, symlinks, and the directory of attributes that were removed."""
    tree.link(folder, b"short", b"../files")
    tree.link(folder, b"long", b"t" * 2500)
    tree.link(folder, b"longest", b"u" * 3900)
    for name, mode, device in ((b"c", 0o20600, 0x501), (b"b", 0o60660, 0x812), (b"p", 0o10644, 0), (b"s", 0o140777, 0)):
        tree.special(folder, name, mode, device)
        tree.special(folder, b"old-" + name, mode, device, old=True)
    private = tree.folder(ROOT, b".reiserfs_priv")
    tree.folder(tree.folder(private, b"xattrs"), b"4.0")
    unnamed = tree.new(folder)
    tree.put(unnamed, STAT, 0, stat(FILE, 0, BLOCK, 8))
    tree.put(unnamed, INDIRECT, 1, struct.pack("<I", *tree.blocks(1)))


def scattered(draw):
    """The numbers of blocks in short runs: some in the first unit, the others behind it."""
    first, end = JOURNAL_FIRST + JOURNAL + 1, 60
    while True:
        yield from range(first, end)
        first = (end if end > 256 else 256) + draw.choice((1, 1, 2, 5, 17))
        end = first + draw.choice((1, 1, 2, 4, 9, 30))


def mark_used(out, blocks):
    """Sets the bits of blocks in the first bitmap block."""
    out.seek(17 * BLOCK)
    bits = bytearray(out.read(BLOCK))
    for block in blocks:
        bits[block // 8] |= 1 << block % 8
    out.seek(17 * BLOCK)
    out.write(bits)


def full_volume(path, blocks, width, seed):
    """Writes the volume, of so many blocks, with so many children at most below a node of its tree."""
    draw = random.Random(seed)
    with open(path, "w+b") as out:
        tree = Tree(out, scattered(draw), draw)
        add_files(tree, tree.folder(ROOT, b"files"))
        add_names(tree, tree.folder(ROOT, b"names"))
        add_rare(tree, tree.folder(ROOT, b"rare"))
        for place in (MIRROR, blocks - 1):
            # where the superblock has a copy in the new volume, and where no chunk may lie
            if place < blocks:
                tree.file(ROOT, b"block-%d" % place, BLOCK, [place])
                tree.write(place, draw.randbytes(BLOCK))
        leaves = tree.leaves()
        leaves.flush()
        root, level = inner_levels(leaves.nodes, tree.write, tree.numbers, width)
        write_system(tree.write_block, JOURNAL_FIRST + JOURNAL + 1, root, level + 1, tree.next, blocks, JOURNAL)
        out.truncate(blocks * BLOCK)
        mark_used(out, tree.used)
