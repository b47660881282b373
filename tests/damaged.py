#!/usr/bin/env python3
"""Damages a small volume in one place, each time another, and looks that each command that reads it is refused with the line that says so,
and that none writes. The program is that of the environment's RECONV, or else release/reiserconv. The last line is `N passed, M failed`."""

import os
import re
import struct
import subprocess
import sys
import tempfile
from pathlib import Path

TOP = Path(__file__).resolve().parent.parent
sys.path.insert(0, str(TOP / "tests/failing"))
from crc32c import crc32c  # noqa: E402
from volumes import BLOCK, SUPERBLOCK, empty_volume  # noqa: E402

PROGRAM = os.environ.get("RECONV", str(TOP / "release/reiserconv"))
NODE = 16384


def word(number):
    return struct.pack("<H", number)


def long(number):
    return struct.pack("<I", number)


# What is changed of the ReiserFS volume: blocks, places in them and bytes; and the line.
REISER = {
    "the magic of format 3.5": ([(16, 52, b"ReIsErFs\0")], "refused 3 unsupported 1 35"),
    "blocks of 1024 bytes": ([(16, 44, word(1024))], "refused 3 unsupported 2 1024"),
    "a journal on another device": ([(16, 16, long(2049))], "refused 3 unsupported 3 2049"),
    "a file system with errors": ([(16, 62, word(2))], "refused 3 unsupported 4 2"),
    "too many blocks": ([(16, 0, long(536870913))], "refused 3 unsupported 5 536870913"),
    "errors, and mounted": ([(16, 62, word(2)), (16, 50, word(2))], "refused 3 unsupported 4 2"),
    "mounted": ([(16, 50, word(2))], "refused 2 unclean 2"),
    "a tree of height 8": ([(16, 68, word(8))], "refused 6 damaged 16 1"),
    "a root outside": ([(16, 8, long(2048))], "refused 6 damaged 16 1"),
    "a journal that is too long": ([(16, 20, long(2030))], "refused 6 damaged 16 1"),
    "one block more than the device": ([(16, 0, long(2049))], "refused 4 short 2049 2048"),
    "the bitmap's own block is free": ([(17, 2, b"\xfd")], "refused 6 damaged 17 2"),
    "the journal's header is free": ([(17, 6, b"\x0b")], "refused 6 damaged 50 2"),
    "the root is free": ([(17, 6, b"\x07")], "refused 6 damaged 51 6"),
    "a tree of height 3": ([(16, 68, word(3))], "refused 6 damaged 51 3"),
    "a leaf without items": ([(51, 2, word(0))], "refused 6 damaged 51 3"),
    "an item's body one byte further": ([(51, 44, word(4053))], "refused 6 damaged 51 4"),
}

# What is changed of the superblock of the converted volume: places and bytes, whether the checksum is made right again, and the line.
SUPER = {
    "a wrong checksum": (300, b"A", False, "refused 13 badbtrfs 65536 1"),
    "a feature that is not known": (188, None, True, "refused 3 unsupported 11 128"),
    "another kind of checksum": (196, word(1), True, "refused 3 unsupported 12 1"),
    "sectors of 8192 bytes": (144, long(8192), True, "refused 3 unsupported 13 8192"),
    "two devices": (136, struct.pack("<Q", 2), True, "refused 3 unsupported 15 2"),
}


class Checks:
    """The checks that were made, on a volume in a folder."""

    def __init__(self, folder):
        self.path, self.passed, self.failed = f"{folder}/volume", 0, 0

    def run(self, command, volume):
        Path(self.path).write_bytes(volume)
        return subprocess.run([PROGRAM, command, self.path], capture_output=True, text=True, check=False)

    def refused(self, name, volume, commands, line):
        """Each of the commands is refused with a line of this form, and writes nothing."""
        for command in commands:
            ended = self.run(command, bytes(volume))
            kept = Path(self.path).read_bytes() == volume
            if (ended.returncode, ended.stdout, kept) == (1, "", True) and re.fullmatch(f"{line}\n", ended.stderr):
                self.passed += 1
            else:
                self.failed += 1
                print(f"FAILED {command}, {name}: status {ended.returncode}, {ended.stderr.strip()}{'' if kept else ', and it wrote'}")


def reiser_volumes(checks):
    for name, (changes, line) in REISER.items():
        volume = bytearray(empty_volume())
        for block, at, data in changes:
            volume[block * BLOCK + at : block * BLOCK + at + len(data)] = data
        checks.refused(name, volume, ("inspect", "list", "convert"), line)


def btrfs_volumes(checks):
    ended = checks.run("convert", empty_volume())
    if ended.returncode:
        raise SystemExit(f"the volume is not converted: {ended.stderr}")
    whole = Path(checks.path).read_bytes()
    for name, (at, data, sealed, line) in SUPER.items():
        volume = bytearray(whole)
        start = SUPERBLOCK.start
        data = data or struct.pack("<Q", struct.unpack_from("<Q", whole, start + at)[0] | 0x80)
        volume[start + at : start + at + len(data)] = data
        if sealed:
            volume[start : start + 4] = long(crc32c(bytes(volume[start + 32 : start + BLOCK])))
        checks.refused(name, volume, ("list", "rollback"), line)
    (root,) = struct.unpack_from("<Q", whole, SUPERBLOCK.start + 80)
    volume = bytearray(whole)
    volume[root : root + NODE] = bytes(NODE)
    checks.refused("the root of all trees is zeros", volume, ("list", "rollback"), f"refused 13 badbtrfs {root} [56]")


def main():
    with tempfile.TemporaryDirectory() as folder:
        checks = Checks(folder)
        reiser_volumes(checks)
        btrfs_volumes(checks)
    print(f"{checks.passed} passed, {checks.failed} failed")
    return 1 if checks.failed or not checks.passed else 0


if __name__ == "__main__":
    sys.exit(main())
