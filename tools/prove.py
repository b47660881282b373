#!/usr/bin/env python3
"""Proves crates for whoever works on them, each text once on a machine.

    tools/prove.py NAME [FLAG..]          checks the crate, by the flags of `rt check`: --only FUNCTION, --allow-holes, --start FUNCTION, --test ..
    tools/prove.py --lanes N NAME..       proves these crates and all below them, N side by side, those with the longest chain behind them first
    tools/prove.py --lanes N all          every crate but those of tests
    tools/prove.py --program NAME         proves a program and builds it, as the gate does, to crates/NAME/out/NAME

`rt ci` proves everything from nothing, and `rt check` builds all that lies below a crate in the checkout that it runs in. This keeps the
library of each crate that was proved under a checksum over its text and that of all below it, in ~/.cache/reiserconv/proved, so that
other checkouts find it there: nothing is proved twice. It is no judge: only `rt ci` is.
"""
import fcntl
import hashlib
import os
import shutil
import subprocess
import sys
import tempfile
import time
from concurrent.futures import FIRST_COMPLETED, ThreadPoolExecutor, wait

KIT = os.path.dirname(subprocess.run(["rt", "doc"], capture_output=True, text=True, check=True).stdout.strip())
RATTLE = f"{KIT}/bin/rattle"
ROOT = os.path.dirname(os.path.dirname(os.path.realpath(__file__)))
KEPT = os.path.expanduser("~/.cache/reiserconv/proved")
PARTS = ("src", "specs", "proofs")


class Crates:
    """The crates of crates.txt, with the libraries that each names."""

    def __init__(self):
        self.named, self.sums, self.lower = {}, {}, {}
        with open(f"{ROOT}/crates.txt", encoding="utf-8") as file:
            for line in file:
                name, colon, libraries = line.split("#")[0].strip().partition(":")
                if colon:
                    self.named[name.split()[0]] = libraries.split()

    def folder(self, name):
        return f"{ROOT}/crates/{name}"

    def is_program(self, name):
        return os.path.exists(f"{self.folder(name)}/src/main.rt")

    def libraries(self, name):
        return [it for it in self.named[name] if it in self.named]

    def of_kit(self, name):
        return ["std"] + [it for it in self.named[name] if it not in self.named]

    def below(self, name):
        """The libraries below a crate, each after those that it names."""
        if name not in self.lower:
            found = []
            for library in self.libraries(name):
                found += [it for it in [*self.below(library), library] if it not in found]
            self.lower[name] = found
        return self.lower[name]

    def files(self, name):
        for at, folders, files in os.walk(self.folder(name)):
            folders.sort()
            inside = os.path.relpath(at, self.folder(name))
            if inside.split("/")[0] in PARTS:
                yield from (f"{at}/{it}" for it in sorted(files) if it.endswith((".rt", ".antt")))

    def sum(self, name):
        """A checksum over the kit, the crate's text, and that of all below it."""
        if name not in self.sums:
            with open(f"{KIT}/WHAT", "rb") as file:
                found = hashlib.sha256(file.read())
            found.update(repr(sorted(self.named[name])).encode())
            for path in self.files(name):
                with open(path, "rb") as file:
                    found.update(repr((os.path.relpath(path, ROOT), file.read())).encode())
            for library in self.libraries(name):
                found.update(self.sum(library).encode())
            self.sums[name] = found.hexdigest()
        return self.sums[name]

    def library(self, name):
        """Where the crate's library is kept, or is to be."""
        return f"{KEPT}/{name}/{self.sum(name)[:16]}/{name}.rlib"

    def is_proved(self, name):
        return os.path.isdir(self.library(name))

    def lines(self, name):
        return sum(open(path, "rb").read().count(b"\n") for path in self.files(name))

    def words(self, name):
        words = ["--crate-name", name, "src/main.rt" if self.is_program(name) else "src/lib.rt"]
        for library in self.of_kit(name):
            words += ["--extern", f"{library}={KIT}/rlibs/{library}.rlib"]
        words += ["-L", f"dependency={KIT}/rlibs"]
        for library in self.libraries(name):
            words += ["--extern", f"{library}={self.library(library)}"]
        for library in self.below(name):
            words += ["-L", f"dependency={os.path.dirname(self.library(library))}"]
        logic = ["--antt-project", f"{KIT}/rattle/logic/antt-project.json", "--logic-built", f"{KIT}/logic_built"]
        return [*words, *logic, "--links", f"{name}="]

    def prove(self, name, out=None):
        """Proves a library from nothing and keeps it. Of two runs over the same text one waits for the other."""
        place = self.library(name)
        os.makedirs(os.path.dirname(place), exist_ok=True)
        with open(f"{os.path.dirname(place)}/lock", "w", encoding="utf-8") as lock:
            fcntl.flock(lock, fcntl.LOCK_EX)
            if self.is_proved(name):
                return 0
            words = [RATTLE, "build", *self.words(name), "--jobs", "1", "--statements", "-o", f"{place}.new"]
            status = subprocess.run(words, cwd=self.folder(name), stdout=out, stderr=out, check=False).returncode
            if status == 0:
                shutil.rmtree(place, ignore_errors=True)
                os.rename(f"{place}.new", place)
            return status


def prove_all(crates, names, lanes):
    """Proves the crates and all below them in lanes, and says of each how it went."""
    wanted = []
    for name in names:
        wanted += [it for it in [*crates.below(name), name] if it not in wanted and not crates.is_program(it)]
    behind = {it: crates.lines(it) for it in wanted}
    for name in sorted(wanted, key=lambda it: -len(crates.below(it))):
        for library in crates.libraries(name):
            behind[library] = max(behind[library], behind[name] + crates.lines(library))
    left = [it for it in wanted if not crates.is_proved(it)]
    failed, running = set(), {}

    def run(name):
        begun = time.time()
        log = f"{KEPT}/{name}/log"
        os.makedirs(os.path.dirname(log), exist_ok=True)
        with open(log, "w", encoding="utf-8") as out:
            return crates.prove(name, out), time.time() - begun, log

    with ThreadPoolExecutor(lanes) as pool:
        while left or running:
            for name in sorted(left, key=lambda it: -behind[it]):
                if failed & {*crates.below(name)}:
                    left.remove(name)
                    failed.add(name)
                elif len(running) < lanes and all(crates.is_proved(it) for it in crates.below(name)):
                    left.remove(name)
                    running[pool.submit(run, name)] = name
            for done in wait(running, return_when=FIRST_COMPLETED).done if running else ():
                name = running.pop(done)
                status, seconds, log = done.result()
                print(f"{name}: {'NOT PROVED, see ' + log if status else 'proved'} ({seconds:.0f} s)", flush=True)
                failed |= {name} if status else set()
    print(f"{len(wanted) - len(failed)} proved, {len(failed)} not: {' '.join(sorted(failed))}" if failed else f"{len(wanted)} proved")
    return 1 if failed else 0


def lack(crates, name):
    """Proves what lies below a crate, and says whether that failed."""
    return any(crates.prove(it) for it in crates.below(name))


def check(crates, name, flags):
    """Checks a crate over what earlier checks of this checkout kept."""
    if lack(crates, name):
        return 1
    kept = f"{crates.folder(name)}/out/{'tests' if '--test' in flags else 'checked'}"
    words = [RATTLE, "check", *crates.words(name), "--incremental", kept, *flags]
    os.makedirs(kept, exist_ok=True)
    return subprocess.run(words, cwd=crates.folder(name), check=False).returncode


def build(crates, name):
    """Proves a program from nothing, compiles what was proved, and links it."""
    if lack(crates, name):
        return 1
    folder, to = crates.folder(name), f"out/{name}"
    os.makedirs(f"{folder}/out", exist_ok=True)
    with tempfile.TemporaryDirectory() as room:
        words = crates.words(name)
        steps = [[RATTLE, "check", *words, "--jobs", "2", "-o", f"{room}/checked"]]
        at = words.index("--logic-built")
        words = [*words[:at], *words[at + 2 :], "--crate-checked", f"{room}/checked", "--toolchain", f"{KIT}/toolchain"]
        steps += [[RATTLE, "build", *words, "--backend", "llvm", "-o", f"{to}.o"]]
        link = [f"{KIT}/bin/rattle-link", "--target", "x86_64-unknown-linux-gnu", "--toolchain", f"{KIT}/toolchain"]
        steps += [[*link, "-o", to, f"{to}.o", f"{KIT}/c/libos_c.a", f"{KIT}/c/liblibc_c.a"]]
        return next((it for it in (subprocess.run(step, cwd=folder, check=False).returncode for step in steps) if it), 0)


def main(words):
    crates = Crates()
    if len(words) > 2 and words[0] == "--lanes" and words[1].isdigit():
        every = [it for it in crates.named if not it.endswith("_tests")]
        return prove_all(crates, every if words[2:] == ["all"] else words[2:], int(words[1]))
    if len(words) == 2 and words[0] == "--program":
        return build(crates, words[1])
    if words and words[0] in crates.named:
        return check(crates, words[0], words[1:])
    print(__doc__)
    return 2


if __name__ == "__main__":
    sys.exit(main(sys.argv[1:]))
