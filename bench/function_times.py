#!/usr/bin/env python3
"""What each function of a crate costs to prove: seconds by the clock, the dearest first.

    bench/function_times.py CRATE [--test] [--most N]     --test: with the crate's tests; N lines, 20 where none is given

`rt check` makes the crates below first. Then the crate is proved from nothing with one job, in a folder of its own, where the prover keeps each
module as soon as it has checked it: the time between one file and the one before it is what a module took. The modules of one function are added
up. Run it beside nothing else. The status is that of `rt check`, or of the prover."""

import argparse
import collections
import os
import shutil
import subprocess
import sys
import tempfile
import time

TOP = os.path.dirname(os.path.dirname(os.path.abspath(__file__)))


def libraries():
    """A map from each crate of the repository to the libraries that it uses, by crates.txt."""
    found = {}
    with open(f"{TOP}/crates.txt", encoding="utf-8") as lines:
        for line in lines:
            name, colon, used = line.partition("#")[0].partition(":")
            if colon:
                found[name.split()[0]] = used.split()
    return found


def below(crate, uses):
    """The crates of the repository that a crate stands on."""
    found = set()
    todo = [crate]
    while todo:
        for name in uses[todo.pop()]:
            if name in uses and name not in found:
                found.add(name)
                todo.append(name)
    return sorted(found)


def words_of(crate, kept):
    """The prover's command line for a crate, over the kit and over what `rt check` has made of the crates below, which keeps modules in a folder."""
    kit = os.path.dirname(os.path.dirname(os.path.realpath(shutil.which("rt"))))
    uses = libraries()
    place = lambda name: f"{TOP}/crates/{name}/out/rlib" if name in uses else f"{kit}/rlibs"
    root = "src/main.rt" if os.path.exists(f"{TOP}/crates/{crate}/src/main.rt") else "src/lib.rt"
    words = ["rattle", "check", "--crate-name", crate, root]
    for name in ["std", *uses[crate]]:
        words += ["--extern", f"{name}={place(name)}/{name}.rlib"]
    for folder in [f"{kit}/rlibs", *[place(name) for name in below(crate, uses)]]:
        words += ["-L", f"dependency={folder}"]
    words += ["--antt-project", f"{kit}/rattle/logic/antt-project.json", "--logic-built", f"{kit}/logic_built"]
    return [*words, "--links", f"{crate}=", "--jobs", "1", "--incremental", kept]


def function_of(module):
    """The function whose module this is: its path without the library and without the parts that the prover adds, which begin with a
    capital behind the function's name."""
    library, _, path = module.partition(".")
    parts = path.split(".")
    while len(parts) > 1 and not parts[-1][0].islower():
        parts.pop()
    path = ".".join(parts)
    return path if library.endswith("-proofs") else f"{library} {path}".rstrip()


def kept_modules(folder):
    """The modules that a check has kept in a folder, each with the moment it was written at."""
    for place, _, names in os.walk(folder):
        if os.path.basename(place) != "records":
            for name in names:
                if name.endswith(".oantt"):
                    yield os.stat(f"{place}/{name}").st_mtime, name.removesuffix(".oantt")


def quiet(words, folder):
    """Runs a command, shows what it printed where it fails, and gives its status."""
    ran = subprocess.run(words, cwd=folder, stdout=subprocess.PIPE, stderr=subprocess.STDOUT, text=True, errors="replace")
    if ran.returncode:
        sys.stderr.write(ran.stdout)
    return ran.returncode


def main():
    parser = argparse.ArgumentParser(description=__doc__, formatter_class=argparse.RawDescriptionHelpFormatter)
    parser.add_argument("crate")
    parser.add_argument("--test", action="store_true")
    parser.add_argument("--most", type=int, default=20)
    given = parser.parse_args()
    crate = f"{TOP}/crates/{given.crate}"
    status = quiet(["rt", "check"], crate)
    if status:
        return status
    with tempfile.TemporaryDirectory() as kept:
        before = time.time()
        status = quiet([*words_of(given.crate, kept), *["--test"] * given.test], crate)
        cost = collections.Counter()
        for moment, module in sorted(kept_modules(kept)):
            cost[function_of(module)] += moment - before
            before = moment
    for function, seconds in cost.most_common(given.most):
        print(f"{seconds:8.1f}  {function}")
    print(f"{sum(cost.values()):8.1f}  all")
    return status


if __name__ == "__main__":
    sys.exit(main())
