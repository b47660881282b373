#!/usr/bin/env python3
"""How often a rollback reads each node of the trees on its way, by its traced calls.

    bench/node_reads.py VOLUME

VOLUME is a ReiserFS volume. A copy is converted and then rolled back under strace. Of each tree on the way to the saved
image a line tells its nodes and how often each of their blocks was read: by mean, and at most. The bytes are read here
by the format alone, with none of the program's code. RECONV names the program, by itself the one that ./reiserconv
runs. It needs strace (Debian's package) and room for two copies.
"""

import re
import struct
import subprocess
import sys
import tempfile
from collections import Counter
from pathlib import Path

from disk import program

BLOCK = 4096
HEADER, POINTER, ITEM, CHUNK, STRIPE, KEY = 101, 33, 25, 48, 32, 17
DIR_INDEX, ROOT_ITEM, CHUNK_ITEM = 96, 132, 228
READ = re.compile(r"pread64\(.*, (\d+), (\d+)\) += \d+")


class Volume:
    """The trees of a Btrfs volume on one device."""

    def __init__(self, path):
        self.bytes = path.read_bytes()
        block = self.bytes[16 * BLOCK : 17 * BLOCK]
        root, chunk_root = struct.unpack_from("<QQ", block, 0x50)
        (self.nodesize,) = struct.unpack_from("<I", block, 0x94)
        (size,) = struct.unpack_from("<I", block, 0xA0)
        self.chunks = []
        self.add_array(block[0x32B : 0x32B + size])
        self.trees = {}
        for _, kind, offset, body in self.walk("chunk", chunk_root):
            if kind == CHUNK_ITEM:
                self.add_chunk(offset, body)
        self.roots = {number: struct.unpack_from("<Q", body, 176)[0] for number, kind, _, body in self.walk("root", root) if kind == ROOT_ITEM}
        saved = [body for number, kind, _, body in self.walk("file", self.roots[5]) if (number, kind) == (256, DIR_INDEX) and body[30:].startswith(b"reiserfs_saved")]
        self.walk("image", self.roots[struct.unpack_from("<Q", saved[0])[0]])

    def add_array(self, array):
        while array:
            (offset,) = struct.unpack_from("<Q", array, 9)
            array = array[KEY + self.add_chunk(offset, array[KEY:]) :]

    def add_chunk(self, logical, body):
        """Notes a chunk by its first stripe; answers its length in bytes."""
        (length,) = struct.unpack_from("<Q", body)
        (stripes,) = struct.unpack_from("<H", body, 44)
        self.chunks.append((logical, length, struct.unpack_from("<Q", body, CHUNK + 8)[0]))
        return CHUNK + STRIPE * stripes

    def place(self, address):
        return next(physical + address - logical for logical, length, physical in self.chunks if logical <= address < logical + length)

    def walk(self, name, address):
        """The items of a tree. Its nodes are noted as (block, level)."""
        at = self.place(address)
        node = self.bytes[at : at + self.nodesize]
        count, level = struct.unpack_from("<IB", node, 0x60)
        self.trees.setdefault(name, []).append((at // BLOCK, level))
        found = []
        for i in range(count):
            if level:
                found += self.walk(name, struct.unpack_from("<Q", node, HEADER + POINTER * i + KEY)[0])
            else:
                number, kind, offset, start, size = struct.unpack_from("<QBQII", node, HEADER + ITEM * i)
                found.append((number, kind, offset, node[HEADER + start : HEADER + start + size]))
        return found


def reads_of(trace):
    """How often each block was read."""
    reads = Counter()
    for line in trace.read_text(errors="replace").splitlines():
        call = READ.search(line)
        if call:
            size, at = map(int, call.groups())
            reads.update(range(at // BLOCK, (at + size) // BLOCK))
    return reads


def main():
    if len(sys.argv) != 2 or sys.argv[1].startswith("-"):
        sys.exit(__doc__)
    with tempfile.TemporaryDirectory() as room:
        volume, trace = Path(room, "volume"), Path(room, "trace")
        subprocess.run(["cp", "--sparse=always", sys.argv[1], volume], check=True)
        volume.chmod(0o600)
        subprocess.run([program(), "convert", volume], check=True, stdout=subprocess.DEVNULL)
        trees = Volume(volume)
        subprocess.run(["strace", "-f", "-s", "0", "-e", "trace=pread64", "-P", volume, "-o", trace, program(), "rollback", volume], check=True, stdout=subprocess.DEVNULL)
        reads = reads_of(trace)
    width = trees.nodesize // BLOCK
    for name, nodes in trees.trees.items():
        for kind, inner in (("inner nodes", True), ("leaves", False)):
            blocks = [reads[first + i] for first, level in nodes if (level > 0) == inner for i in range(width)]
            if blocks:
                print(f"{name} tree: {len(blocks) // width} {kind}, read {sum(blocks) / len(blocks):.2f} times, at most {max(blocks)}")
    print(f"all blocks: {sum(reads.values())} reads")


if __name__ == "__main__":
    main()
