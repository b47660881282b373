#!/usr/bin/env python3
"""Checks docs/PROVED.md against the sources: each crate has a heading of its own, and each name in backquotes below it stands as a word in
that crate's sources or definitions, so that no clause or law is named that is not there.

    tests/proved.py           prints a line for each name that does not stand there, and a last line `N names of M crates, K missing`

The status is 1 where one is missing, or a crate of crates.txt has no heading and more than tests."""

import os
import re
import sys

# What is named in backquotes and is no name in the sources.
OTHERS = {"reiserfs_saved", "--uuid copy", "--help", "--version"}
# Sections of PROVED.md that are about one crate, by their headings.
PROGRAMS = {"The program `reiserconv`": "volume_app", "The program `sample_volume`": "reiser_make_app"}
# Crates with a main alone.
MAINS = {"reiserconv", "sample_volume"}
# The end of the names of crates with tests alone, which have one part together.
TESTS = "_tests"


def words_of(crate):
    """All words of the sources, definitions and lemmas of a crate."""
    found = set()
    for folder in ("src", "specs", "proofs"):
        for place, _, files in os.walk(os.path.join("crates", crate, folder)):
            for file in files:
                with open(os.path.join(place, file), encoding="utf-8") as opened:
                    found.update(re.findall(r"\w+", opened.read()))
    return found


def sections():
    """The (crate, text) of each part of the document that is about a crate."""
    crate, text = None, []
    with open("docs/PROVED.md", encoding="utf-8") as lines:
        for line in lines:
            heading = re.match(r"#+ (.*)", line)
            if heading:
                yield crate, "".join(text)
                alone = re.fullmatch(r"`(\w+)`", heading.group(1))
                crate = alone.group(1) if alone else PROGRAMS.get(heading.group(1))
                text = []
            else:
                text.append(line)
    yield crate, "".join(text)


def main():
    os.chdir(os.path.join(os.path.dirname(os.path.abspath(__file__)), ".."))
    with open("crates.txt", encoding="utf-8") as lines:
        crates = {line.split(":")[0] for line in lines if re.match(r"\w+:", line)}
    count, missing, seen = 0, 0, set(MAINS)
    for crate, text in sections():
        if crate is None:
            continue
        seen.add(crate)
        known = words_of(crate)
        # a law may be that of another crate, which is named beside it
        for other in crates & set(re.findall(r"`(\w+)`", text)):
            known |= words_of(other) | {other}
        for name in re.findall(r"`([^`]+)`", text):
            if name in OTHERS or name.startswith(("ensures", "convert", "crates/")):
                continue
            count += 1
            for word in re.findall(r"\w+", name):
                if word not in known:
                    print(f"{crate}: no {name} in its sources")
                    missing += 1
    for crate in sorted(it for it in crates - seen if not it.endswith(TESTS)):
        print(f"{crate}: docs/PROVED.md says nothing of it")
        missing += 1
    print(f"{count} names of {len(seen)} crates, {missing} missing")
    return 1 if missing else 0


if __name__ == "__main__":
    sys.exit(main())
