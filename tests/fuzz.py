#!/usr/bin/env python3
"""Changes the metadata of volumes of both formats, and looks how the program takes them:

    tests/fuzz.py [--first SEED] [--count N] [--seconds S] [--check N]

makes the runs of N seeds, from SEED on, or as many as S seconds allow. A seed says which volume is changed, how, and which command
is run. The status has to be 0, 1 or 6 with its line, within 10 seconds and 200 MB; a refusal leaves the volume as it was, and so do
`inspect` and `list`; after status 0 of `convert`, `list` prints what it printed before, and of each N-th such volume `btrfs check` finds
nothing; a ReiserFS volume is taken by `inspect`, `list` and `convert` or by none of them. Where the program has `rollback`, it brings each
converted volume back. Each run that ends otherwise has a line with its seed, and the last line is `N passed, M failed`.

    tests/fuzz.py --seed SEED --keep FILE

makes one run, tells in words what it changes, and keeps the changed volume.

The program is that of the environment's RECONV, or else crates/reiserconv/out/reiserconv, or where that is not there the one in release/."""

import argparse
import collections
import os
import random
import shutil
import sys
import tempfile
import time
from pathlib import Path

sys.path.insert(0, str(Path(__file__).resolve().parent / "fuzzing"))
from base import Draft  # noqa: E402
from bases import Bases  # noqa: E402
from changes import change  # noqa: E402
from program import Program  # noqa: E402
from runs import Runs, Wrong  # noqa: E402

TOP = Path(__file__).resolve().parent.parent


def words():
    parser = argparse.ArgumentParser()
    parser.add_argument("--first", type=int, default=1)
    parser.add_argument("--count", type=int, default=2000)
    parser.add_argument("--seconds", type=int, default=3600)
    parser.add_argument("--check", type=int, default=20)
    parser.add_argument("--seed", type=int)
    parser.add_argument("--keep")
    parser.add_argument("--only", help="the one command that is run")
    parser.add_argument("--base", help="the one volume that is changed")
    parser.add_argument("--slow", action="store_true", help="the program has checks at run time")
    return parser.parse_args()


def draft_of(seed, bases, only):
    """The changed volume of a seed, and the dice that go on."""
    rng = random.Random(seed)
    name = bases.draw(rng)
    draft = Draft(bases.get(only or name))
    change(draft, rng)
    return draft, rng


def try_seed(seed, bases, runs, given):
    """Makes the run of a seed. Answers the command and how it ended."""
    draft, rng = draft_of(seed, bases, given.base)
    command = given.only or runs.draw(draft.base, rng)
    draft.apply()
    if given.keep:
        shutil.copyfile(draft.base.path, given.keep)
        print(f"seed {seed}: {command} of the volume {draft.base.name}", *draft.told, sep="\n    ")
    try:
        status = runs.make(command, draft)
    except Wrong as wrong:
        print(f"FAILED seed {seed}: {command} of the volume {draft.base.name}: {wrong}", flush=True)
        status = "failed"
        draft.base.whole()
    draft.undo()
    return command, status


def all_seeds(bases, runs, given):
    """Makes the runs. Answers how many failed."""
    begun, counts, done = time.monotonic(), collections.Counter(), 0
    for seed in range(given.first, given.first + given.count):
        if time.monotonic() - begun > given.seconds:
            print(f"stopped after {given.seconds} seconds")
            break
        command, status = try_seed(seed, bases, runs, given)
        counts[command, status] += 1
        done += 1
        if done % 1000 == 0:
            print(f"{done} runs, {time.monotonic() - begun:.0f} seconds", flush=True)
    for (command, status), count in sorted(counts.items(), key=str):
        print(f"{command:8} status {status}: {count}")
    took = f"{time.monotonic() - begun:.0f} seconds, {sum(os.times()[:4]):.0f} of a processor"
    print(f"seeds {given.first} to {given.first + done - 1} in {took};", runs.summary())
    failed = sum(count for (_, status), count in counts.items() if status == "failed")
    print(f"{done - failed} passed, {failed} failed")
    return failed


def built():
    """The program that was built here, or else the one in release/."""
    here = TOP / "crates/reiserconv/out/reiserconv"
    return here if here.exists() else TOP / "release/reiserconv"


def main():
    given = words()
    if given.seed is not None:
        given.first, given.count = given.seed, 1
    with tempfile.TemporaryDirectory(dir="/dev/shm" if os.access("/dev/shm", os.W_OK) else None) as work:
        program = Program(os.environ.get("RECONV", built()), work, given.slow)
        bases = Bases(program, work, TOP)
        return all_seeds(bases, Runs(program, given.check), given) > 0


if __name__ == "__main__":
    sys.exit(main())
