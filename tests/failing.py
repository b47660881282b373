#!/usr/bin/env python3
"""Refuses the program's calls one after the other, each in a run of its own, and looks how it ends:

    tests/failing.py [--jobs N] [--sample NUMBER]

For each command on a small volume, and on what it is converted to, each allocation is refused in turn, each call of the device fails in
turn (with all after it, as where a disk is gone), and each write of the output fails in turn. NUMBER is that of a sample volume (100) of
12,288 blocks, on which each allocation of `convert` is refused too; 0 leaves that out.

- Without an allocation the status is 4, or 7 where the arguments could not be read, 3 where the device could not be opened, or 0 where the
  program does without. Nothing that the volume uses is changed then but after status 0: the commands never run out of memory once block 16
  is written.
- Where a device call fails the status is 3. Then `recover` and `list` print the rows from before, both where all that was written is there
  and where all is lost that was written since the last sync.
- Where a write of the output fails the status is 5, and the volume is as after status 0.
- A trial is made on a new file; nothing is looked for there where it was not done. Of its many allocations and device
  calls some are taken.

The program is that of the environment's RECONV, or else crates/reiserconv/out/reiserconv, as `rt ci` builds it: into the one in release/, which is
made of it, no library can be loaded. It needs a C compiler and the sample program of release/. Where there is no such program, one line says that it is
skipped. The last line is `N passed, M failed`; each failure has a line."""

import argparse
import collections
import concurrent.futures
import itertools
import os
import subprocess
import sys
import tempfile
from pathlib import Path

sys.dont_write_bytecode = True
sys.path.insert(0, str(Path(__file__).resolve().parent / "failing"))
from loaded import PROGRAM, begin, library  # noqa: E402
from volumes import BLOCK, SUPERBLOCK, empty_volume, marked  # noqa: E402

TOP = Path(__file__).resolve().parent.parent
Ended = collections.namedtuple("Ended", "status out err counts")
# Its words but the path, and what the volume is before, None for a new file.
Command = collections.namedtuple("Command", "word base")
# The blocks of a file for a trial, and how many of its allocations and of its device calls are refused.
SCRATCH, SOME = 65536, 60


class Bench:
    """Runs of the program on one volume of a folder of its own, with calls that are refused."""

    def __init__(self, shim):
        self.shim, self.folder = shim, tempfile.TemporaryDirectory()
        self.volume = f"{self.folder.name}/volume"
        self.held = None

    def put(self, data):
        """Has the volume hold these bytes."""
        if self.held != data:
            Path(self.volume).write_bytes(data)
            self.held = data

    def read(self):
        self.held = Path(self.volume).read_bytes()
        return self.held

    def clear(self):
        """Has the volume be a new file for a trial."""
        with open(self.volume, "wb") as it:
            it.truncate(SCRATCH * BLOCK)
        self.held = None

    def run(self, word, **refused):
        counts = f"{self.folder.name}/counts"
        given = {"PATH": "/nowhere", "LD_PRELOAD": self.shim, "VOLUME": self.volume, "COUNTS": counts}
        given.update({name: str(value) for name, value in refused.items()})
        ran = subprocess.run([PROGRAM, *word.split(), self.volume], env=given, capture_output=True, check=False)
        return Ended(ran.returncode, ran.stdout, ran.stderr, [int(it) for it in Path(counts).read_text().split()])

    def rows(self):
        """What `recover` and then `list` end with."""
        return self.run("recover").status, self.run("list")[:2]


class Table:
    """The runs of one command on a volume, whose rows are these, and which uses these blocks."""

    def __init__(self, bench, command, rows, used):
        self.bench, self.command, self.rows, self.used = bench, command, rows, used
        bench.put(command.base)
        self.whole = bench.run(command.word)
        self.after = bench.read()
        if self.whole.status:
            raise SystemExit(f"{command.word} ends with status {self.whole.status}: {self.whole.err.decode()}")

    def is_kept(self, now):
        """Whether nothing that the volume uses is changed; the command may have written what is free if it converts."""
        if self.command.word != "convert":
            return now == self.command.base
        return all(now[n * BLOCK : n * BLOCK + BLOCK] == self.command.base[n * BLOCK : n * BLOCK + BLOCK] for n in self.used)

    def is_done(self, now):
        """Whether the volume is as after status 0. Two conversions differ in their identifiers."""
        if self.command.word == "convert":
            return now[SUPERBLOCK][64:72] == b"_BHRfS_M" and self.bench.rows() == (0, self.rows)
        return now == self.after

    def memory(self, number):
        self.bench.put(self.command.base)
        ended = self.bench.run(self.command.word, MEMORY=number)
        now = self.bench.read()
        if ended.status == 0:
            return self.is_done(now) or "the command was done, and not as it should"
        if ended.status in (3, 7):
            return (ended.counts[1] == 0 and now == self.command.base) or f"status {ended.status}, and the device was open"
        if ended.status != 4 or ended.err != b"out of memory\n" or ended.out:
            return f"status {ended.status}"
        return (self.is_kept(now) and now[SUPERBLOCK] == self.command.base[SUPERBLOCK]) or "out of memory after a write"

    def call(self, number, lose):
        self.bench.put(self.command.base)
        ended = self.bench.run(self.command.word, CALL=number, **({"LOSE": 1} if lose else {}))
        if ended.status != 3 or ended.err != b"device fault\n" or ended.out:
            return f"status {ended.status}"
        if self.bench.read() == self.command.base:
            return True
        found = self.bench.rows()
        self.bench.read()
        return found == (0, self.rows) or f"then recover and list end with {found}"

    def output(self, number):
        self.bench.put(self.command.base)
        ended = self.bench.run(self.command.word, OUTPUT=number)
        now = self.bench.read()
        if ended.status != 5 or ended.err != b"output fault\n":
            return f"status {ended.status}"
        answer = self.is_done(now) or "not as after status 0"
        self.bench.read()
        return answer

    def all(self, with_calls=True):
        """The checks, each with its name."""
        allocations, calls, outputs = self.whole.counts
        for number in range(1, allocations + 1):
            yield f"allocation {number}", self.memory, (number,)
        for number in range(1, calls + 1) if with_calls else ():
            yield f"call {number}", self.call, (number, False)
            yield f"call {number}, and what waited is lost", self.call, (number, True)
        for number in range(1, outputs + 1) if with_calls else ():
            yield f"write {number} of the output", self.output, (number,)


class Trial:
    """The runs of a trial on a new file, which leaves these rows."""

    def __init__(self, bench, command, rows):
        self.bench, self.word, self.rows = bench, command.word, rows
        self.whole = self.run()
        if self.whole.status:
            raise SystemExit(f"{self.word} ends with status {self.whole.status}: {self.whole.err.decode()}")

    def run(self, **refused):
        self.bench.clear()
        return self.bench.run(self.word, **refused)

    def is_done(self):
        return self.bench.run("list")[:2] == self.rows or "the trial was done, and the sample is not there"

    def memory(self, number):
        ended = self.run(MEMORY=number)
        if ended.status == 0:
            return self.is_done()
        if ended.status in (3, 7):
            return ended.counts[1] == 0 or f"status {ended.status}, and the device was open"
        return (ended.status, ended.out, ended.err) == (4, b"", b"out of memory\n") or f"status {ended.status}"

    def call(self, number):
        ended = self.run(CALL=number)
        return (ended.status, ended.out, ended.err) == (3, b"", b"device fault\n") or f"status {ended.status}"

    def output(self, number):
        ended = self.run(OUTPUT=number)
        return self.is_done() if (ended.status, ended.err) == (5, b"output fault\n") else f"status {ended.status}"

    def all(self, with_calls=True):
        """The checks, each with its name."""
        allocations, calls, outputs = self.whole.counts
        for number in range(1, allocations + 1, max(1, allocations // SOME)):
            yield f"allocation {number}", self.memory, (number,)
        for number in range(1, calls + 1, max(1, calls // SOME)) if with_calls else ():
            yield f"call {number}", self.call, (number,)
        for number in range(1, outputs + 1) if with_calls else ():
            yield f"write {number} of the output", self.output, (number,)


def part(task):
    """Each JOBS-th check of a command, from one on: how many passed, and lines for those that failed."""
    shim, command, rows, used, with_calls, first, jobs = task
    bench = Bench(shim)
    table = Table(bench, command, rows, used) if command.base else Trial(bench, command, rows)
    passed, failed = 0, []
    for name, check, words in itertools.islice(table.all(with_calls), first, None, jobs):
        answer = check(*words)
        if answer is True:
            passed += 1
        else:
            failed.append(f"FAILED {command.word}, {name}: {answer}")
    return passed, failed, table.whole.counts if first == 0 else None


def converted(shim, volume):
    """The volume, converted, and how `list` ends on the volume before."""
    bench = Bench(shim)
    bench.put(volume)
    rows = bench.run("list")[:2]
    if bench.run("convert").status:
        raise SystemExit("a volume is not converted")
    return bench.read(), rows


def sample(number, folder):
    """A sample volume."""
    path = f"{folder}/sample"
    with open(path, "wb") as it:
        it.truncate(12288 * BLOCK)
    subprocess.run([TOP / "release/sample_volume", str(number), "12288", path], check=True, stdout=subprocess.DEVNULL)
    return Path(path).read_bytes()


def told_of(base):
    """What is said of a volume: its format and how many blocks it has."""
    if base is None:
        return f"a new file, {SCRATCH}"
    form = "Btrfs" if base[SUPERBLOCK][64:72] == b"_BHRfS_M" else "ReiserFS"
    return f"{form}, {len(base) // BLOCK}"


def tasks(shim, folder, number):
    """The commands with their volumes."""
    small = empty_volume()
    other, rows = converted(shim, small)
    for word, base in itertools.product(("inspect", "list", "recover", "convert", "rollback"), (small, other)):
        if (word, base) not in (("convert", other), ("rollback", small)):
            yield Command(word, base), rows, marked(small), True
    yield Command("trial 0", None), rows, (), True
    if number:
        volume = sample(number, folder)
        yield Command("convert", volume), converted(shim, volume)[1], marked(volume), False


def main():
    parser = argparse.ArgumentParser()
    parser.add_argument("--jobs", type=int, default=os.cpu_count())
    parser.add_argument("--sample", type=int, default=100)
    given = parser.parse_args()
    begin("failing calls")
    passed, failed = 0, 0
    with tempfile.TemporaryDirectory() as folder, concurrent.futures.ProcessPoolExecutor(given.jobs) as pool:
        shim = library(folder)
        for command, rows, used, with_calls in tasks(shim, folder, given.sample):
            parts = [(shim, command, rows, used, with_calls, first, given.jobs) for first in range(given.jobs)]
            sums = [0, 0]
            for well, lines, counts in pool.map(part, parts):
                sums[0] += well
                sums[1] += len(lines)
                if counts:
                    told = "{} allocations, {} calls of the device, {} writes of the output".format(*counts)
                for line in lines:
                    print(line)
            print(f"{command.word} of {told_of(command.base)} blocks: {told}: {sums[0]} passed, {sums[1]} failed", flush=True)
            passed, failed = passed + sums[0], failed + sums[1]
    print(f"{passed} passed, {failed} failed")
    return 1 if failed or not passed else 0


if __name__ == "__main__":
    sys.exit(main())
