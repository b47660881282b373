#!/usr/bin/env python3
"""What each crate costs in the gate: processor seconds of its proof, of its tests' proof, and of its wrong bodies.

    bench/gate_table.py [-o FILE] [COMMAND..]       runs the command (rt ci, where none is given) and watches it
    bench/gate_table.py [-o FILE] --pid NUMBER      watches a run that has begun already

`rt ci` prints no times, so every half second this looks up how much of the processors each prover below it has taken so far:
the name of its crate is in its words, those of tests have `--test`, and wrong bodies are checked in folders rt-edit-*. What a
process takes between the last look and its end is lost, a quarter of a second each. At the end it writes a table in
Markdown, the dearest crate first, to FILE, or to standard error; where FILE has the lines of `MARKS`, as bench/GATE_COSTS.md, the
table stands between them then, and the rest stays. The status is that of the command."""

import argparse
import os
import subprocess
import sys
import time

TICKS = os.sysconf("SC_CLK_TCK")
KINDS = ("proof", "tests", "wrong bodies")
MARKS = ("<!-- costs -->\n", "<!-- end of costs -->\n")


def processes():
    """A map from each process to its parent, the moment that it began at, and its processor seconds so far without those of its
    children."""
    found = {}
    for name in os.listdir("/proc"):
        if name.isdigit():
            try:
                with open(f"/proc/{name}/stat", encoding="utf-8", errors="replace") as stat:
                    fields = stat.read().rpartition(")")[2].split()
            except OSError:
                continue
            found[int(name)] = int(fields[1]), fields[19], (int(fields[11]) + int(fields[12])) / TICKS
    return found


def below(root, found):
    """The processes that the root began, and those that they began."""
    children = {}
    for pid, (parent, _, _) in found.items():
        children.setdefault(parent, []).append(pid)
    todo, all_below = [root], []
    while todo:
        for child in children.get(todo.pop(), []):
            all_below.append(child)
            todo.append(child)
    return all_below


def task_of(pid):
    """The crate and the kind of what a process does, or None where it is no prover."""
    try:
        with open(f"/proc/{pid}/cmdline", "rb") as words:
            words = words.read().decode(errors="replace").split("\0")
        folder = os.readlink(f"/proc/{pid}/cwd")
    except OSError:
        return None
    if "--crate-name" not in words or os.path.basename(words[0]) != "rattle":
        return None
    crate = words[words.index("--crate-name") + 1]
    if "/rt-edit-" in folder:
        return crate, "wrong bodies"
    return crate, "tests" if "--test" in words else "proof"


class Watch:
    """The tasks and the seconds of the processes that were seen."""

    def __init__(self):
        self.tasks, self.seconds = {}, {}

    def look(self, root):
        found = processes()
        for pid in below(root, found):
            _, began, seconds = found[pid]
            # (numbers of processes come again in a long run)
            one = pid, began
            if self.tasks.get(one) is None:
                # (between fork and exec a process has the words of its parent)
                self.tasks[one] = task_of(pid)
            self.seconds[one] = max(self.seconds.get(one, 0), seconds)

    def table(self, whole):
        sums, others = {}, 0
        for one, seconds in self.seconds.items():
            if self.tasks[one] is None:
                others += seconds
            else:
                crate, kind = self.tasks[one]
                row = sums.setdefault(crate, dict.fromkeys(KINDS, 0))
                row[kind] += seconds
        lines = ["| Crate | Proof | Tests | Wrong bodies | All |", "|---|---|---|---|---|"]
        for crate, row in sorted(sums.items(), key=lambda it: -sum(it[1].values())):
            lines.append(f"| `{crate}` | " + " | ".join(f"{row[kind]:.0f}" for kind in KINDS) + f" | {sum(row.values()):.0f} |")
        all_of = [sum(row[kind] for row in sums.values()) for kind in KINDS]
        lines.append("| all crates | " + " | ".join(f"{it:.0f}" for it in all_of) + f" | {sum(all_of):.0f} |")
        day = time.strftime("%Y-%m-%d")
        lines += ["", f"That is {sum(all_of) / 60:.0f} processor minutes. All else that the run began took {others:.0f} s. By the clock the run took "]
        lines[-1] += f"{whole / 60:.0f} minutes on {os.cpu_count()} processors ({day})."
        return "\n".join(lines) + "\n"


def write(file, text):
    old = ""
    if os.path.isfile(file):
        with open(file, encoding="utf-8") as it:
            old = it.read()
    if all(mark in old for mark in MARKS):
        text = old.partition(MARKS[0])[0] + MARKS[0] + "\n" + text + "\n" + MARKS[1] + old.partition(MARKS[1])[2]
    with open(file, "w", encoding="utf-8") as out:
        out.write(text)


def main():
    parser = argparse.ArgumentParser(description=__doc__.split("\n", maxsplit=1)[0])
    parser.add_argument("-o", dest="file", metavar="FILE")
    parser.add_argument("--pid", type=int)
    parser.add_argument("command", nargs=argparse.REMAINDER)
    words = parser.parse_args()
    watch, start, status = Watch(), time.monotonic(), 0
    child = None if words.pid else subprocess.Popen(words.command or ["rt", "ci"])
    try:
        while os.path.exists(f"/proc/{words.pid}") if child is None else child.poll() is None:
            watch.look(words.pid or child.pid)
            time.sleep(0.5)
        status = child.returncode if child else 0
    finally:
        text = watch.table(time.monotonic() - start)
        if words.file:
            write(words.file, text)
        else:
            sys.stderr.write(text)
    return status


if __name__ == "__main__":
    sys.exit(main())
