"""The volumes that are changed: some that Linux wrote, some with one of everything, and what they become when they are converted."""

import shutil
import subprocess
import time

import btrfs
import reiser
from base import Base
from volumes import full_volume

# Volumes of tests/volumes, and how often each is drawn.
PACKED = {"tiny": 4, "collide": 1, "attrs": 1, "xattr-removed": 0.5, "b-basic": 0.5, "b-64k": 0.3}
# How often, and blocks, children at most below a node, and seed: one with a deep tree, one with room for a copy of the superblock,
# and one that has just the space for a conversion. The last blocks of each belong to no chunk.
FULL = {"full": (6, 4101, 3, 1), "large": (3, 16641, 170, 2), "tight": (3, 1807, 4, 3)}
# How often, and what is converted, with which size of nodes.
CONVERTED = {
    "full-4k": (4, "full", "4096"),
    "large-16k": (3, "large", "16384"),
    "tight-16k": (2, "tight", "16384"),
    "full-64k": (1, "full", "65536"),
    "tiny-4k": (2, "tiny", "4096"),
}


class Bases:
    """The volumes by their names. Each is made in a folder when it is first asked for."""

    def __init__(self, program, work, top):
        self.program, self.work, self.top, self.made = program, work, top, {}
        parts = [PACKED, {name: one[0] for name, one in FULL.items()}, {name: one[0] for name, one in CONVERTED.items()}]
        self.weights = {name: weight for part in parts for name, weight in part.items()}

    def draw(self, rng):
        """The name of a volume."""
        return rng.choices(list(self.weights), list(self.weights.values()))[0]

    def get(self, name):
        if name not in self.made:
            self.made[name] = self.make(name)
        return self.made[name]

    def make(self, name):
        path = f"{self.work}/{name}"
        moments = self.write(name, path)
        base = Base(name, path)
        (btrfs if base.read(65536 + 64, 8) == b"_BHRfS_M" else reiser).find_spans(base)
        if base.size > 1 << 26:
            base.span("superblock's copy", 1 << 26, 4096)
        if moments:
            btrfs.make_steady(base, *moments)
        return base

    def write(self, name, path):
        """Writes a volume. Answers the moments between which it was converted, if it was."""
        if name in PACKED:
            packed = f"{self.top}/tests/volumes/{name}.img.zst"
            subprocess.run(["zstd", "-dqf", "--sparse", packed, "-o", path], check=True)
        elif name in FULL:
            full_volume(path, *FULL[name][1:])
        else:
            _, source, size = CONVERTED[name]
            self.write(source, path)
            return self.convert(path, size)
        return None

    def convert(self, path, size):
        begun = int(time.time())
        ended = self.program.run("convert", "--nodesize", size, path)
        if ended.status:
            raise SystemExit(f"the volume {path} is not converted: {ended.err.decode()}")
        return begun, int(time.time())
