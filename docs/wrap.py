#!/usr/bin/env python3
"""Breaks the prose of the repository's Markdown files into lines of at most 120 characters; tables, code and headings stay as they are.

    docs/wrap.py [FILE..]            writes them
    docs/wrap.py --check [FILE..]    prints which files have longer lines of prose; the status is 1 where one has

What docs/refusals.py has made is only looked at. A name in backquotes stays on one line."""

import glob
import os
import re
import sys

WIDTH = 120
FILES = ["*.md", "docs/*.md", "bench/*.md"]
# a list's item, with what stands before its text
ITEM = re.compile(r"(\s*)([-*]|\d+\.) +")
# what a line of a paragraph may not begin with, since it would begin something else
BEGINS = re.compile(r"[-*+#>|]|\d+\.")


def words_of(text):
    """The words of a paragraph; what stands in backquotes is a part of one word."""
    words = []
    for word in re.findall(r"(?:`[^`]*`|[^\s`]|`)+", text):
        if words and BEGINS.fullmatch(word.rstrip(" ")):
            words[-1] += " " + word
        else:
            words.append(re.sub(r"\s+", " ", word))
    return words


def filled(first, rest, text):
    """The lines of a paragraph, the first of which begins with `first`, and each further one with `rest`."""
    lines, line = [], None
    for word in words_of(text):
        if line is None:
            line = first + word
        elif len(line) + 1 + len(word) <= WIDTH:
            line += " " + word
        else:
            lines.append(line)
            line = rest + word
    return [*lines, line] if line else lines


def parts_of(lines):
    """(is prose, lines) for each part of a document: a paragraph or a list's item, or one line of anything else."""
    part, fenced, made = [], False, False
    for line in lines:
        fence = line.lstrip().startswith("```")
        made = made or line.startswith("<!-- table:")
        # four columns of a line that goes on with no paragraph are code
        other = fenced or fence or made or not line.strip() or line.lstrip().startswith(("|", "#", "<!--", ">")) or (not part and line.startswith("    "))
        made = made and not line.startswith("<!-- end of table")
        fenced ^= fence
        if part and (other or ITEM.match(line)):
            yield True, part
            part = []
        if other:
            yield False, [line]
        else:
            part.append(line)
    if part:
        yield True, part


def wrapped(lines):
    for prose, part in parts_of(lines):
        item = ITEM.match(part[0])
        if not prose:
            yield from part
        elif item:
            yield from filled(item[0], " " * len(item[0]), " ".join([part[0][len(item[0]) :], *part[1:]]))
        else:
            indent = part[0][: len(part[0]) - len(part[0].lstrip())]
            yield from filled(indent, indent, " ".join(part))


def too_long(lines):
    """The numbers of the lines of prose that are too long; a word alone may be."""
    fenced = False
    for number, line in enumerate(lines, 1):
        fence = line.startswith("```")
        fenced ^= fence
        if fence or fenced or line.startswith(("|", "    ")) or len(line) <= WIDTH:
            continue
        if len(words_of(line)) > 1:
            yield number


def main():
    words = [it for it in sys.argv[1:] if it != "--check"]
    os.chdir(os.path.join(os.path.dirname(os.path.abspath(__file__)), ".."))
    status = 0
    for file in words or sorted(it for pattern in FILES for it in glob.glob(pattern)):
        with open(file, encoding="utf-8") as opened:
            old = opened.read()
        lines = old.split("\n")
        if "--check" in sys.argv[1:]:
            if found := list(too_long(lines)):
                print(f"{file}: {len(found)} lines of prose have more than {WIDTH} characters, line {found[0]} the first: run docs/wrap.py")
                status = 1
        elif (new := "\n".join(wrapped(lines))) != old:
            with open(file, "w", encoding="utf-8") as out:
                out.write(new)
    return status


if __name__ == "__main__":
    sys.exit(main())
