#!/usr/bin/env python3
"""Writes a ReiserFS 3.6 volume whose tree has so many leaves: tree_volume.py LEAVES FILE.

Each leaf holds 8 files: the stat item, an item of 8 pointers and a tail of 350 bytes for each. Leaves lie one behind the
other, then the inner nodes, then the blocks of data, which are left as holes of the image. No directory names the files,
so the volume is good for a walk of its tree alone.
"""
import struct
import sys

BLOCK = 4096
FILES, POINTERS, TAIL = 8, 8, 350
JOURNAL_FIRST, JOURNAL_SIZE = 18, 8192


def blocks_from(first):
    """The numbers of blocks from a first one on, but for bitmap blocks."""
    while True:
        if first % 32768:
            yield first
        first += 1


def head(key, kind, offset, length, location):
    return struct.pack("<IIQHHHH", *key, offset | kind << 60, 0xFFFF, length, location, 1)


def leaf(number, data):
    block = bytearray(BLOCK)
    heads, end = [], BLOCK
    for file in range(FILES):
        key = (2, 10 + number * FILES + file)
        stat = struct.pack("<HHIQIIIIIII", 0o100644, 0, 1, POINTERS * BLOCK + TAIL, 0, 0, 1, 1, 1, 0, 0)
        pointers = struct.pack("<%dI" % POINTERS, *(next(data) for _ in range(POINTERS)))
        for kind, offset, body in ((0, 0, stat), (1, 1, pointers), (2, POINTERS * BLOCK + 1, bytes(TAIL))):
            end -= len(body)
            block[end : end + len(body)] = body
            heads.append(head(key, kind, offset, len(body), end))
    struct.pack_into("<HHH", block, 0, 1, len(heads), end - 24 - 24 * len(heads))
    block[24 : 24 + 24 * len(heads)] = b"".join(heads)
    return block


def inner(level, children):
    block = bytearray(BLOCK)
    keys = len(children) - 1
    struct.pack_into("<HHH", block, 0, level, keys, BLOCK - 24 - 16 * keys - 8 * len(children))
    for i, child in enumerate(children):
        struct.pack_into("<IHH", block, 24 + 16 * keys + 8 * i, child, BLOCK - 24, 0)
    return block


def groups(nodes):
    """Parts of at most 170, none of one alone."""
    parts = [nodes[i : i + 170] for i in range(0, len(nodes), 170)]
    if len(parts[-1]) == 1:
        parts[-1].insert(0, parts[-2].pop())
    return parts


def main():
    leaves, path = int(sys.argv[1]), sys.argv[2]
    numbers = blocks_from(JOURNAL_FIRST + JOURNAL_SIZE + 1)
    nodes = [next(numbers) for _ in range(leaves)]
    above = []
    level = 1
    while len(nodes) > 1:
        level += 1
        parts = groups(nodes)
        nodes = [next(numbers) for _ in parts]
        above += [(number, inner(level, part)) for number, part in zip(nodes, parts)]
    with open(path, "wb") as out:

        def write(number, block):
            out.seek(number * BLOCK)
            out.write(block)

        places = blocks_from(JOURNAL_FIRST + JOURNAL_SIZE + 1)
        for number in range(leaves):
            write(next(places), leaf(number, numbers))
        for number, block in above:
            write(number, block)
        end = next(numbers)
        for bitmap in range(end // 32768 + 1):
            first = bitmap * 32768
            used = min(32768, end - first)
            bits = bytearray(b"\xff" * (used // 8) + bytes(BLOCK - used // 8))
            if used % 8:
                bits[used // 8] = (1 << used % 8) - 1
            write(17 if bitmap == 0 else first, bits)
        superblock = bytearray(BLOCK)
        struct.pack_into("<IIIIII", superblock, 0, end, 0, nodes[0], JOURNAL_FIRST, 0, JOURNAL_SIZE)
        struct.pack_into("<HHHH", superblock, 44, BLOCK, 972, 2, 1)
        superblock[52:62] = b"ReIsEr2Fs\0"
        struct.pack_into("<HIHHH", superblock, 62, 0, 3, level + 1, end // 32768 + 1, 2)
        write(16, superblock)
        out.truncate(end * BLOCK)
    print("blocks", end, "nodes", leaves + len(above), "height", level + 1)


main()
