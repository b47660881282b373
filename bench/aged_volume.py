#!/usr/bin/env python3
"""Writes a ReiserFS 3.6 volume as use would leave it: aged_volume.py fresh|aged MIB FILE.

MIB is 256 or more. The script acts out what bench/linux/use has Linux do: files of up to 64 kB, one in a hundred
larger, 200 in a directory, with names in no order of time.

fresh  the volume is filled once, directory by directory, until 55 % of it is used
aged   until 90 % is used; then four times a half of the files, drawn by lot, goes, and new files come in directories
       drawn by lot, four of them written by turns. In the end whole directories go until 55 % is used

Where blocks go is near what Linux does (fs/reiserfs/bitmap.c): the first free one from a goal on. The goal of a file's
block is the one behind the block before, and that of its first block is the directory's group of 128 MiB, which is
drawn by lot, behind 2048 blocks that are left to leaves. The goal of a leaf is the leaf that was split for it. A leaf
that fits into the one before it is merged with it. So the leaves lie together, and with time in no order.

The percents are those of the first seven eighths. The last eighth is never used, so that there is room for a
conversion, which takes whole free MiB. The blocks of data are holes of the image. `reiserfsck --check` finds no
corruption in such a volume.
"""
import bisect
import random
import struct
import sys

from files_volume import (
    BLOCK,
    DIRECT,
    FILES,
    INDIRECT,
    JOURNAL_FIRST,
    JOURNAL_SIZE,
    ROOM,
    STAT,
    TAIL,
    Leaves,
    add_directory,
    inner_levels,
    stat,
    write_journal_header,
    write_superblock,
    writer_of,
)
from many_files import name_of

ROOT, FIRST = (1, 2), 3
# a bitmap's blocks, and how many of them are left to leaves
GROUP, FOR_LEAVES = 32768, 2048
TURN = 4
HEAD = 24


class Space:
    """The blocks of a volume, a byte for each, which is 1 where it is used."""

    def __init__(self, blocks):
        self.used, self.free = bytearray(blocks), blocks
        for block in (*range(JOURNAL_FIRST + JOURNAL_SIZE + 1), *range(GROUP, blocks, GROUP)):
            self.used[block] = 1
            self.free -= 1

    def take(self, goal):
        """The first free block from a goal on, or from the start."""
        block = self.used.find(0, goal)
        if block < 0:
            block = self.used.index(0)
        self.used[block] = 1
        self.free -= 1
        return block

    def give(self, block):
        self.used[block] = 0
        self.free += 1

    def grow(self, blocks):
        """Further blocks behind the last one."""
        for block in range(len(self.used), blocks):
            self.used.append(block % GROUP == 0)
            self.free += block % GROUP != 0

    def percent(self):
        return 100 - 100 * self.free / len(self.used)


class File:
    """A file with its blocks; its last bytes are a tail, where they are few."""

    def __init__(self, key, size):
        self.key, self.size, self.blocks = key, size, []
        self.whole = size // BLOCK if size < 16384 and size % BLOCK <= TAIL else -(-size // BLOCK)
        self.tail = max(size - self.whole * BLOCK, 0)
        # what it takes in a leaf
        self.room = HEAD + 44 + (HEAD + 4 * self.whole if self.whole else 0) + (HEAD + self.tail + -self.tail % 8 if self.tail else 0)


class Tree:
    """The leaves that hold files, in the order of keys: of each its first key, and [block, files by key, bytes]."""

    def __init__(self, space):
        self.space = space
        self.first, self.leaves = [(0, 0)], [[space.take(GROUP if len(space.used) > GROUP else 0), {}, 0]]

    def place(self, key):
        return max(bisect.bisect_right(self.first, key) - 1, 0)

    def add(self, file):
        at = self.place(file.key)
        leaf = self.leaves[at]
        leaf[1][file.key] = file
        leaf[2] += file.room
        if leaf[2] > ROOM:
            self.split(at)

    def split(self, at):
        """A leaf is too full: its last file goes into a new one, if it is the newest there, else a half."""
        leaf = self.leaves[at]
        keys = sorted(leaf[1])
        newest = next(reversed(leaf[1]))
        moved = keys[-1:] if newest == keys[-1] else keys[len(keys) // 2 :]
        files = {key: leaf[1].pop(key) for key in moved}
        room = sum(file.room for file in files.values())
        leaf[2] -= room
        self.first.insert(at + 1, moved[0])
        self.leaves.insert(at + 1, [self.space.take(leaf[0]), files, room])
        for part in (at + 1, at):
            if self.leaves[part][2] > ROOM:
                self.split(part)

    def remove(self, file):
        at = self.place(file.key)
        leaf = self.leaves[at]
        del leaf[1][file.key]
        leaf[2] -= file.room
        if at and leaf[2] + self.leaves[at - 1][2] <= ROOM:
            before = self.leaves[at - 1]
            before[1].update(leaf[1])
            before[2] += leaf[2]
            self.space.give(leaf[0])
            del self.first[at], self.leaves[at]


class Volume:
    """What is on the volume: files by lists of their directories, and where the next file of a directory goes."""

    def __init__(self, blocks):
        self.space, self.draw = Space(blocks), random.Random(7)
        self.tree = Tree(self.space)
        self.folders, self.goals, self.made = [], [], 0

    def size(self):
        if self.draw.random() < 0.01:
            return self.draw.randrange(65536, 965536)
        return self.draw.randrange(*((1, 2000), (2000, 9000), (4096, 64000), (4096, 30000))[self.draw.randrange(4)])

    def new_file(self, by_lot):
        """A file in the newest directory, or in one drawn by lot."""
        if not by_lot and self.made % FILES == 0:
            self.folders.append([])
            self.goals.append(GROUP * (self.draw.randrange(len(self.space.used) // GROUP) + 1) + FOR_LEAVES)
        folder = self.draw.randrange(len(self.folders)) if by_lot else len(self.folders) - 1
        file = File((folder, self.made), self.size())
        self.made += 1
        self.folders[folder].append(file)
        return file

    def write_files(self, count, by_lot):
        """So many new files, whose blocks are taken by turns."""
        waiting = [self.new_file(by_lot) for _ in range(count)]
        while waiting:
            file = self.draw.choice(waiting)
            for _ in range(min(TURN, file.whole - len(file.blocks))):
                file.blocks.append(self.space.take(file.blocks[-1] + 1 if file.blocks else self.goals[file.key[0]]))
            if len(file.blocks) == file.whole:
                waiting.remove(file)
                self.tree.add(file)

    def remove(self, file):
        self.tree.remove(file)
        for block in file.blocks:
            self.space.give(block)

    def fill(self, percent, at_once, by_lot):
        while self.space.percent() < percent:
            self.write_files(at_once, by_lot)

    def thin_out(self):
        for folder in self.folders:
            left = []
            for file in folder:
                if self.draw.random() < 0.5:
                    self.remove(file)
                else:
                    left.append(file)
            folder[:] = left

    def age(self):
        self.fill(90, 1, False)
        for _ in range(4):
            self.thin_out()
            self.fill(90, 4, True)
        for folder in self.folders:
            if self.space.percent() <= 55:
                break
            while folder:
                self.remove(folder.pop())


class Numbers:
    """Where the next node goes: a block that is known, or the first free one from a goal on."""

    def __init__(self, space):
        self.space, self.goal, self.known = space, 0, None

    def __next__(self):
        block, self.known = self.known, None
        return self.space.take(self.goal) if block is None else block


def add_file(leaves, key, file):
    leaves.add(key, STAT, 0, 0xFFFF, stat(0o100644, 1, file.size, 8 * (file.whole + (file.tail > 0))))
    if file.whole:
        leaves.add(key, INDIRECT, 1, 0, struct.pack("<%dI" % file.whole, *file.blocks))
    if file.tail:
        leaves.add(key, DIRECT, file.whole * BLOCK + 1, 0xFFFF, b"t" * file.tail + bytes(-file.tail % 8))


def write_tree(volume, write):
    """The leaves of the directories, those of the files, and the nodes above. Answers the root, the height and the
    first free object id."""
    folders = [i for i, folder in enumerate(volume.folders) if folder]
    numbers, first = Numbers(volume.space), FIRST + len(volume.folders)
    leaves = Leaves(write, numbers)
    numbers.goal = volume.tree.leaves[0][0]
    add_directory(leaves, ROOT, (0, 1), 2 + len(folders), [((ROOT[1], FIRST + i), b"d%06d" % i) for i in folders])
    for i in folders:
        names = [((FIRST + i, first + file.key[1]), name_of(file.key[1])) for file in volume.folders[i]]
        add_directory(leaves, (ROOT[1], FIRST + i), ROOT, 2, names)
    leaves.flush()
    for block, files, _ in volume.tree.leaves:
        if files:
            numbers.known = block
            for key in sorted(files):
                add_file(leaves, (FIRST + key[0], first + key[1]), files[key])
            leaves.flush()
        else:
            volume.space.give(block)
    numbers.known = None
    root, level = inner_levels(leaves.nodes, write, numbers)
    return root, level + 1, first + volume.made


def write_bitmaps(used, write):
    for first in range(0, len(used), GROUP):
        # what lies behind the volume is marked too
        part = used[first : first + GROUP].ljust(GROUP, b"\1")
        write(first or 17, bytes(sum(part[at + bit] << bit for bit in range(8)) for at in range(0, GROUP, 8)))


def main():
    kind, blocks, path = sys.argv[1], int(sys.argv[2]) * 256, sys.argv[3]
    volume = Volume(blocks * 7 // 8)
    if kind == "fresh":
        volume.fill(55, 1, False)
    else:
        volume.age()
    with open(path, "wb") as out:
        write = writer_of(out)
        volume.space.grow(blocks)
        root, height, first_free = write_tree(volume, write)
        write_journal_header(write)
        write_bitmaps(volume.space.used, write)
        write_superblock(write, blocks, volume.space.free, root, height, first_free)
        out.truncate(blocks * BLOCK)
    print("files", sum(map(len, volume.folders)), "of", volume.made, "used", blocks - volume.space.free, "leaves", len(volume.tree.leaves))


if __name__ == "__main__":
    main()
