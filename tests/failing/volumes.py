"""A small ReiserFS volume, and which blocks a small one uses."""

import struct

BLOCK = 4096
SUPERBLOCK = slice(16 * BLOCK, 17 * BLOCK)


def empty_volume():
    """A ReiserFS volume of 2,048 blocks: a journal of 32 blocks from block 18 on, and in block 51 a leaf with an empty root directory."""
    blocks = bytearray(2048 * BLOCK)
    fields = [(0, "<IIII", (2048, 1996, 51, 18)), (20, "<I", (32,)), (44, "<H", (4096,)), (50, "<H", (1,)), (52, "9s", (b"ReIsEr3Fs",)), (68, "<H", (2,))]
    for at, form, values in fields:
        struct.pack_into(form, blocks, SUPERBLOCK.start + at, *values)
    blocks[17 * BLOCK : 17 * BLOCK + 7] = b"\xff" * 6 + b"\x0f"
    leaf = bytearray(BLOCK)
    struct.pack_into("<HHH", leaf, 0, 1, 2, 3932)
    struct.pack_into("<IIQHHHH", leaf, 24, 1, 2, 0, 0, 44, 4052, 1)
    struct.pack_into("<IIIIHHHH", leaf, 48, 1, 2, 1, 500, 2, 48, 4004, 0)
    struct.pack_into("<IIIHHIIIHH", leaf, 4004, 1, 1, 2, 40, 4, 2, 0, 1, 32, 4)
    leaf[4036:4052] = b"..".ljust(8, b"\0") + b".".ljust(8, b"\0")
    struct.pack_into("<HHIQIIIIII", leaf, 4052, 0o40755, 0, 2, 48, 0, 0, 10**9, 10**9, 10**9, 1)
    blocks[51 * BLOCK : 52 * BLOCK] = leaf
    return bytes(blocks)


def marked(volume):
    """The numbers of the blocks that a ReiserFS volume uses; it has at most 32,768."""
    bits = volume[17 * BLOCK : 18 * BLOCK]
    return [n for n in range(len(volume) // BLOCK) if bits[n // 8] >> n % 8 & 1]
