#!/usr/bin/env python3
"""Changes a sound Btrfs volume in one thing, each time another, and looks that tests/sound.py says so: that the clause
is broken that was meant, or that the volume is still sound where nothing that matters was changed.

    unsound.py [--check] [--only NAME] [--keep FOLDER] VOLUME..

Each change is made of the first of the volumes that has what it needs: room for an item, a free space tree, metadata
that is there twice. They come in an order of their own, whatever their order here: those without a free space tree, and
those with nodes of 16 KiB first.

With --check `btrfs check` judges each volume too. It has to find nothing where the volume is sound; what it says of
the others is told. --keep leaves the changed volumes in a folder. Each changed volume has a line of its name, the
clause that was meant, those that are broken, and the status of `btrfs check`; the last line is `N passed, M failed,
K skipped`."""

import argparse
import shutil
import subprocess
import sys
import tempfile
from pathlib import Path

sys.dont_write_bytecode = True

from sound import changed_extents, changed_files, changed_free, changed_space, changed_trees  # noqa: E402, F401
from sound.changes import CHANGES  # noqa: E402
from sound.editor import Base, Edit  # noqa: E402
from sound.judge import judge  # noqa: E402
from sound.volume import FREE_SPACE_TREE, Unsupported  # noqa: E402


def patched(path, patches):
    """Puts bytes into a file, and gives those that were there."""
    with open(path, "r+b") as file:
        before = []
        for at, data in patches:
            file.seek(at)
            before.append((at, file.read(len(data))))
            file.seek(at)
            file.write(data)
    return before[::-1]


def broken(path):
    """The clauses that are broken."""
    try:
        return sorted(judge(path).of_clause)
    except Unsupported as form:
        return [f"not judged: {form}"]


def checked(path):
    """The status of btrfs check; one that a signal ended has a minus."""
    ended = subprocess.run(["btrfs", "check", "--readonly", path], capture_output=True, check=False, timeout=60)
    return ended.returncode


def judged(name, clause, path, with_check):
    """Judges one changed volume, prints its line, and tells whether all is as it should be."""
    found = broken(path)
    status = checked(path) if with_check else "-"
    right = clause in found if clause else not found and status in (0, "-")
    print(f"{'' if right else 'FAILED '}{name} | {clause or 'sound'} | {' '.join(found) or 'sound'} | {status}")
    return right


class Source:
    """A sound volume, a copy of it that is changed and put right again, and what is read of it."""

    def __init__(self, volume, copy):
        self.path = copy
        subprocess.run(["cp", "--sparse=always", volume, copy], check=True)
        self.base = Base(copy)
        found = broken(copy)
        if found:
            sys.exit(f"the volume {volume} is not sound: {' '.join(found)}")

    def place(self):
        """Where it stands among others."""
        told = self.base.volume.super
        return bool(told.compat_ro & FREE_SPACE_TREE), abs(told.nodesize - 16384)

    def patches(self, function):
        """What a change puts where, or nothing where it can't be made of this volume."""
        edit = Edit(self.base)
        try:
            function(edit)
            return edit.patches()
        except (LookupError, StopIteration, ValueError):
            return None


def one(name, clause, function, sources, asked):
    """Makes and judges one change. Gives whether all is right, or None where no volume has what it needs."""
    for source in sources:
        patches = source.patches(function)
        if patches is None:
            continue
        before = patched(source.path, patches)
        right = judged(name, clause, source.path, asked.check)
        if asked.keep:
            asked.keep.mkdir(exist_ok=True)
            shutil.copyfile(source.path, asked.keep / name)
        patched(source.path, before)
        return right
    print(f"skipped {name}")
    return None


def main():
    words = argparse.ArgumentParser(description=__doc__.split("\n", maxsplit=1)[0])
    words.add_argument("--check", action="store_true")
    words.add_argument("--only")
    words.add_argument("--keep", type=Path)
    words.add_argument("volumes", nargs="+")
    asked = words.parse_args()
    for volume in asked.volumes:
        if not Path(volume).exists():
            words.error(f"there is no volume {volume}; `reiserconv convert` makes one of a copy of samples/tiny.img")
    if asked.check and not shutil.which("btrfs"):
        words.error("there is no program btrfs, of Debian's package btrfs-progs, which --check takes")
    with tempfile.TemporaryDirectory() as folder:
        sources = [Source(volume, f"{folder}/volume{i}") for i, volume in enumerate(asked.volumes)]
        sources.sort(key=Source.place)
        done = [one(*it, sources, asked) for it in CHANGES if not asked.only or it[0] in asked.only.split(",")]
    print(f"{done.count(True)} passed, {done.count(False)} failed, {done.count(None)} skipped")
    return 1 if False in done or True not in done else 0


if __name__ == "__main__":
    sys.exit(main())
