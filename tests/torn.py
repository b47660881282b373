#!/usr/bin/env python3
"""Tears what the program writes, as a power cut may do where a disk writes sectors of 512 bytes:

    tests/torn.py [--jobs N] [--seeds N] VOLUME..

Each VOLUME is a ReiserFS volume, of which a copy is converted and rolled back, while each write and each sync is recorded. What a power cut leaves
at a moment is what was there at the last sync, and of each sector that was written since then one of its values, drawn by a fixed seed. Moments
are the last ones of a command, where block 16 is turned, N seeds each, and some of the others.

Behind each, `recover` is done and says which format there is; where it is done again it writes nothing. `list` prints the rows from before; block
16 is that of the format, in all its bytes; a Btrfs volume is rolled back; and then each used block is as it was. The same holds where the power is
cut again at each moment of `recover`.

The program is that of the environment's RECONV, or else crates/reiserconv/out/reiserconv, as `rt ci` builds it, and it takes a C compiler. Where there is
no such program, one line says that it is skipped. The last line is `N passed, M failed`; each failure has a line."""

import argparse
import concurrent.futures
import os
import random
import struct
import subprocess
import sys
import tempfile
from pathlib import Path

sys.dont_write_bytecode = True

from loaded import PROGRAM, begin, library  # noqa: E402

BLOCK, SECTOR = 4096, 512
# So many calls at the end of a command are all moments, and so many of the others.
LAST, SOME = 12, 24


class Wrong(Exception):
    """What was found that may not be."""


def copy(source, target):
    subprocess.run(["cp", "--sparse=always", source, target], check=True)


def block_of(path, number):
    with open(path, "rb") as volume:
        volume.seek(number * BLOCK)
        return volume.read(BLOCK)


def used_blocks(path):
    """The blocks that a ReiserFS volume marks as used, by their numbers."""
    count = struct.unpack_from("<I", block_of(path, 16))[0]
    used = {}
    for first in range(0, count, 8 * BLOCK):
        bits = block_of(path, first or 17)
        for n in range(min(count - first, 8 * BLOCK)):
            if bits[n // 8] >> n % 8 & 1:
                used[first + n] = None
    with open(path, "rb") as volume:
        for n in used:
            volume.seek(n * BLOCK)
            used[n] = hash(volume.read(BLOCK))
    return used


def run(word, path, **given):
    """A command that has to be done: what it printed."""
    ran = subprocess.run([PROGRAM, word, path], env=given, capture_output=True, check=False)
    if ran.returncode or ran.stderr:
        raise Wrong(f"{word} ends with {ran.returncode} {ran.stderr.decode()!r}")
    return ran.stdout


def recorded(word, path, shim):
    """What a command does to a volume, as pairs of a place and bytes; a sync has none. And what it printed."""
    record = f"{path}.record"
    Path(record).write_bytes(b"")
    said = run(word, path, LD_PRELOAD=shim, VOLUME=path, RECORD=record)
    told, calls, at = Path(record).read_bytes(), [], 0
    while at < len(told):
        place, size = struct.unpack_from("<QQ", told, at)
        calls.append((place, told[at + 16 : at + 16 + size]))
        at += 16 + size
    return calls, said


def left(calls, draw):
    """What a power cut leaves behind these calls, sector by sector."""
    there, waiting = {}, {}
    for place, data in calls:
        if not data:
            there.update({sector: values[-1] for sector, values in waiting.items()})
            waiting = {}
        for at in range(0, len(data), SECTOR):
            waiting.setdefault(place + at, []).append(data[at : at + SECTOR])
    kind = draw.randrange(8)
    for sector, values in waiting.items():
        number = 0 if kind == 0 else len(values) if kind == 1 else draw.randrange(len(values) + 1)
        if number:
            there[sector] = values[number - 1]
    return there


def put(path, sectors):
    with open(path, "r+b") as volume:
        for place, data in sectors.items():
            volume.seek(place)
            volume.write(data)


class Bench:
    """One volume, before a command: its rows, the used blocks of the ReiserFS volume, and the superblock of Btrfs."""

    def __init__(self, shim, folder, old, base, superblock):
        self.shim, self.folder, self.base, self.superblock = shim, folder, base, superblock
        self.rows, self.used = run("list", old), used_blocks(old)
        self.formats = set()

    def look(self, path):
        """Looks at what `recover` leaves."""
        said = run("recover", path).split()
        form = said[2].decode()
        again, told = recorded("recover", path, self.shim)
        if any(data for _, data in again) or told.split()[2:] != [said[2], b"mirrors", b"0"]:
            raise Wrong(f"recover again prints {told.decode()!r}")
        if run("list", path) != self.rows:
            raise Wrong(f"{form} has other rows")
        if form == "btrfs":
            if block_of(path, 16) != self.superblock:
                raise Wrong("block 16 is torn")
            run("rollback", path)
        with open(path, "rb") as volume:
            for n, was in self.used.items():
                volume.seek(n * BLOCK)
                if hash(volume.read(BLOCK)) != was:
                    raise Wrong(f"{form} has lost block {n}")
        self.formats.add(form)

    def crash(self, calls, seed):
        """Looks at what is left of a command behind these calls, and at what is left where the power is cut again in `recover`."""
        draw = random.Random(seed)
        crashed, tried = f"{self.folder}/crashed", f"{self.folder}/tried"
        copy(self.base, crashed)
        put(crashed, left(calls, draw))
        copy(crashed, tried)
        again, _ = recorded("recover", tried, self.shim)
        for moment in range(1, len(again) + 1):
            copy(crashed, tried)
            put(tried, left(again[:moment], draw))
            self.look(tried)
        self.look(crashed)


def moments(count, seeds):
    """Numbers of calls, each with its seed: the last ones with so many seeds, and some of the others."""
    late = max(count - LAST, 0)
    for moment in range(late, count + 1):
        for seed in range(seeds):
            yield moment, 1000 * moment + seed
    draw = random.Random(count)
    for _ in range(SOME if late else 0):
        moment = draw.randrange(late)
        yield moment, 1000 * moment


def part(task):
    """Each JOBS-th moment of a command: how many passed, lines for those that failed, and which formats there were."""
    shim, old, base, superblock, name, calls, chosen = task
    passed, failed = 0, []
    with tempfile.TemporaryDirectory() as folder:
        bench = Bench(shim, folder, old, base, superblock)
        for moment, seed in chosen:
            try:
                bench.crash(calls[:moment], seed)
                passed += 1
            except Wrong as wrong:
                failed.append(f"FAILED {name}, moment {moment} of {len(calls)}, seed {seed}: {wrong}")
    return passed, failed, bench.formats


def commands(shim, folder, given):
    """The commands on a volume: the name, the volume before, the superblock of Btrfs, and what the command does."""
    name, path = Path(given).name, f"{folder}/volume"
    copy(given, path)
    old, new = f"{folder}/{name}", f"{folder}/{name}.converted"
    copy(path, old)
    calls, _ = recorded("convert", path, shim)
    copy(path, new)
    superblock = block_of(new, 16)
    yield f"convert of {name}", old, old, superblock, calls
    calls, _ = recorded("rollback", path, shim)
    yield f"rollback of {name}", old, new, superblock, calls


def main():
    parser = argparse.ArgumentParser()
    parser.add_argument("--jobs", type=int, default=os.cpu_count())
    parser.add_argument("--seeds", type=int, default=6)
    parser.add_argument("volumes", nargs="+")
    given = parser.parse_args()
    begin("torn writes")
    passed, failed = 0, 0
    with tempfile.TemporaryDirectory() as folder, concurrent.futures.ProcessPoolExecutor(given.jobs) as pool:
        shim = library(folder)
        for volume in given.volumes:
            for name, old, base, superblock, calls in commands(shim, folder, volume):
                chosen = list(moments(len(calls), given.seeds))
                tasks = [(shim, old, base, superblock, name, calls, chosen[first :: given.jobs]) for first in range(given.jobs)]
                formats = set()
                for well, lines, found in pool.map(part, tasks):
                    passed, failed, formats = passed + well, failed + len(lines), formats | found
                    for line in lines:
                        print(line)
                if formats != {"btrfs", "reiserfs"}:
                    failed += 1
                    print(f"FAILED {name}: there was only {' '.join(formats)}")
                print(f"{name}: {len(calls)} calls, {len(chosen)} moments", flush=True)
    print(f"{passed} passed, {failed} failed")
    return 1 if failed or not passed else 0


if __name__ == "__main__":
    sys.exit(main())
