#!/usr/bin/env python3
"""Checks that each edit of crates/*/must-fail still fits, without any proof: its file exists, and each `old:` text stands
exactly once in it as the pairs before left it. `rt ci` counts an edit that does not fit as a BAD EDIT, after minutes; this
takes less than a second.

    tests/edits.py            prints a line for each edit that does not fit, and a last line `N fit, M do not, most K in a crate`

The status is 1 where an edit does not fit."""

import os
import sys


def pairs_of(path):
    """The (file, old, new) of an edit, in order. A pair without a `file:` line of its own is of the file before."""
    found, file, old = [], None, None
    with open(path, encoding="utf-8") as lines:
        for line in lines.read().split("\n"):
            if line.startswith("file: "):
                file = line[6:].strip()
            elif line.startswith("old: "):
                old = line[5:]
            elif line.startswith("new:"):
                found.append((file, old, line[5:]))
                old = None
    return found


def faults(crate, path):
    """What is wrong with an edit, as texts."""
    texts = {}
    pairs = pairs_of(path)
    if not pairs:
        yield "no pair of old and new"
    for file, old, new in pairs:
        if file is None or old is None:
            yield "a line `file:` or `old:` is missing"
            return
        source = os.path.join(crate, file)
        if source not in texts:
            if not os.path.isfile(source):
                yield f"no file {file}"
                return
            with open(source, encoding="utf-8") as opened:
                texts[source] = opened.read()
        count = texts[source].count(old)
        if count != 1:
            yield f"stands {count} times in {file}: {old.strip()}"
            return
        if old == new:
            yield f"changes nothing: {old.strip()}"
        texts[source] = texts[source].replace(old, new)


def main():
    crates = os.path.join(os.path.dirname(os.path.abspath(__file__)), "..", "crates")
    fit, unfit, most = 0, 0, 0
    for name in sorted(os.listdir(crates)):
        folder = os.path.join(crates, name, "must-fail")
        edits = sorted(os.listdir(folder)) if os.path.isdir(folder) else []
        most = max(most, len(edits))
        for edit in edits:
            wrong = list(faults(os.path.join(crates, name), os.path.join(folder, edit)))
            for text in wrong:
                print(f"{name}/{edit}: {text}")
            fit, unfit = (fit, unfit + 1) if wrong else (fit + 1, unfit)
    print(f"{fit} fit, {unfit} do not, most {most} in a crate")
    return 1 if unfit else 0


if __name__ == "__main__":
    sys.exit(main())
