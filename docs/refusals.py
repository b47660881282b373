#!/usr/bin/env python3
"""Makes of docs/refusals.table what is said of each line on standard error: crates/reiserconv_talk/src/sentences.rt, which the program tells a person at a
terminal, the parts of docs/REFUSALS.md between `<!-- table: NAME -->` and `<!-- end of table -->`, and the part of docs/reiserconv.8 between
`.\\" table` and `.\\" end of table`.

    docs/refusals.py            writes them
    docs/refusals.py --check    prints which of them are not those of the table; the status is 1 where one is not"""

import os
import re
import sys
import textwrap

TOP = os.path.join(os.path.dirname(os.path.abspath(__file__)), "..")
TABLE = "docs/refusals.table"
SENTENCES = "crates/reiserconv_talk/src/sentences.rt"
DOCUMENT = "docs/REFUSALS.md"
MANUAL = "docs/reiserconv.8"
# the commands of which a refusal may be another matter than of all
COMMANDS = ("convert", "rollback", "trial")


class Block:
    """A block of the table: what it is of, what tells it apart, and its fields."""

    def __init__(self, head):
        self.kind, self.name = head.split(" ", 1)
        self.fields = {}

    def text(self, field):
        return self.fields.get(field, "")

    @property
    def number(self):
        return int(self.name.split(" ")[0])

    @property
    def words(self):
        """Of a refusal the number and the word."""
        return " ".join(self.name.split(" ")[:2])

    @property
    def names(self):
        """The names of the numbers behind the word."""
        return [it for it in self.name.split(" ")[2:] if it.isalpha()]


def read_table(path):
    blocks = []
    with open(path, encoding="utf-8") as lines:
        for line in lines:
            line = line.rstrip("\n")
            if not line or line.startswith("#"):
                continue
            if not line.startswith(" "):
                blocks.append(Block(line))
            elif not line.startswith("     "):
                field, text = line.strip().split(": ", 1)
                blocks[-1].fields[field] = text
            else:
                blocks[-1].fields[field] += " " + line.strip()
    return blocks


# ---- what the program tells ----


def plain(block, field):
    """A text without its marks, with `{1}` for the first number and `{path}` for the path."""
    text = re.sub(r"\[([^]]*)\]\([^)]*\)", r"\1", block.text(field)).replace("`", "'")
    if block.kind in ("refused", *COMMANDS) and field == "means":
        for place, name in enumerate(block.names, 1):
            text = re.sub(rf"\b{name}\b", f"{{{place}}}", text)
    elif block.kind == "refused" and field == "do":
        for place, name in enumerate(block.names, 1):
            text = re.sub(rf"(?<=-inum ){name}\b", f"{{{place}}}", text)
    text = re.sub(r"\bPATH\b", "{path}", text)
    return text.replace("\\", "\\\\").replace('"', '\\"')


def function(name, argument, says, arms):
    """A function of the texts, in the layout of `rt fmt`."""
    names = re.findall(r"\w+(?=:)", argument)
    matched = names[0] if len(names) == 1 else f"({', '.join(names)})"
    lines = [f"/// {says}", f"pub fn {name}({argument}) -> Sentence {{", f"    match {matched} {{"]
    for pattern, means, do in arms:
        lines += [
            f"        {pattern} => Sentence {{",
            f'            means: "{means}",',
            f'            next: "{do}",',
            "        },",
        ]
    return "\n".join([*lines, "        _ => NOTHING,", "    }", "}"])


def sentences(blocks):
    def arms(kind, pattern):
        return [(pattern(it), plain(it, "means"), plain(it, "do")) for it in blocks if it.kind == kind]

    def number(block):
        return str(block.number)

    def quoted(block):
        return f'"{block.name}"'

    def of_command(block):
        return f'("{block.kind}", {block.number})'

    own = [it for kind in COMMANDS for it in arms(kind, of_command)]

    parts = [
        "// Made by docs/refusals.py of docs/refusals.table: change that one, and not this file.\n",
        "/// What a line means, and what to do next, each empty where there is nothing to say. In the text of a refusal `{1}` stands for the first\n"
        "/// number of its line, and so on, and `{path}` for the path of the run.\n"
        "#[derive(Clone, Copy)]\n"
        "pub struct Sentence {\n    pub means: &'static str,\n    pub next: &'static str,\n}\n",
        'const NOTHING: Sentence = Sentence {\n    means: "",\n    next: "",\n};\n',
        function("of_refusal", "number: u64", "Of the refusal with this number.", arms("refused", number)) + "\n",
        function("of_command", "command: &str, number: u64", "Of the refusal with this number of one command, where it is another matter than of all.", own) + "\n",
        function("of_rule", "number: u64", "Of a rule of ReiserFS that is broken.", arms("rule", number)) + "\n",
        function("of_btrfs_rule", "number: u64", "Of a rule of Btrfs that is broken.", arms("btrfs", number)) + "\n",
        function("of_feature", "number: u64", "Of what is not supported.", arms("feature", number)) + "\n",
        function("of_line", "line: &str", "Of a line that is no refusal.", arms("line", quoted)) + "\n",
        function("of_fault", "cause: &str", "Of a device that fails, by the cause.", arms("fault", quoted)) + "\n",
        function("of_start", "cause: &str", "Of a program that does not start, by the cause.", arms("start", quoted)) + "\n",
        function("of_safety", "case: &str", "What is safe.", arms("safe", quoted)) + "\n",
    ]
    return "\n".join(parts)


# ---- the document ----


def wrapped(text, width=120):
    return textwrap.fill(text, width, break_long_words=False, break_on_hyphens=False)


def sections(blocks, part):
    found = []
    for block in blocks:
        if block.kind == "refused" and block.text("part") == part:
            said = wrapped(" ".join(it for it in (block.text("means"), block.text("more")) if it))
            if block.text("do"):
                said += "\n" + wrapped("What to do: " + block.text("do"))
            found.append(f"### `{block.name}`\n\n{said}\n")
    return "\n".join(found)


def rows(blocks, kind, heads, cells):
    lines = [f"| {' | '.join(heads)} |", "|" + "---|" * len(heads)]
    lines += [f"| {' | '.join(cells(it))} |" for it in blocks if it.kind == kind]
    return "\n".join(lines) + "\n"


def both(block):
    return " ".join(it for it in (block.text("means"), block.text("more"), block.text("do")) if it)


def safety(blocks):
    return rows(blocks, "safe", ["How it ended", "What is safe"], lambda it: [it.text("when"), it.text("means")])


def parts_of_document(blocks):
    found = {it: sections(blocks, it) for it in ("reiserfs", "btrfs", "conversion", "back")}
    found["safe"] = safety(blocks)
    found["trial"] = rows(blocks, "trial", ["Line", "What it means, and what to do"], lambda it: [f"`{it.name}`", both(it)])
    found["rules of ReiserFS"] = rows(blocks, "rule", ["Rule", "What is broken"], lambda it: [it.name, both(it)])
    found["rules of Btrfs"] = rows(blocks, "btrfs", ["Rule", "What is broken"], lambda it: [it.name, both(it)])
    found["features"] = rows(blocks, "feature", ["Feature", "What it is, and what helps", "VALUE"], lambda it: [it.name, both(it), it.text("value")])
    found["lines"] = rows(
        blocks, "line", ["Line", "Status", "What it means, and what to do"], lambda it: [f"`{it.name}`", it.text("status"), both(it)]
    )
    found["starts"] = rows(blocks, "start", ["Why", "What to do"], lambda it: [it.text("means"), it.text("do")])
    found["faults"] = rows(blocks, "fault", ["Why", "What to do"], lambda it: [it.text("means"), it.text("do")])
    return found


def document(old, blocks):
    parts = parts_of_document(blocks)

    def put(match):
        return f"{match[1]}\n{parts.pop(match[2])}{match[3]}"

    new = re.sub(r"(<!-- table: ([^>]*) -->\n)(?:.*?)(\n?<!-- end of table -->)", put, old, flags=re.S)
    if parts:
        sys.exit(f"refusals.py: {DOCUMENT} has no place for {', '.join(parts)}")
    return new


# ---- the manual page ----


def as_manual(text):
    """A text as lines of mdoc: each sentence begins a line, and each command stands alone on one."""
    text = re.sub(r"\[([^]]*)\]\([^)]*\)", r"\1", text)
    lines = []
    for place, piece in enumerate(text.split("`")):
        if place % 2:
            piece = re.sub(r"(^| )-", r"\1\\-", piece.replace("\\", "\\e"))
            # a word that mdoc would take for one of its own, as No
            lines.append(".Li " + re.sub(r"(^| )(?=[A-Z][a-z]( |$))", r"\1\\&", piece))
            continue
        closing = re.match(r"[.,:;)]+(?= |$)", piece) if place else None
        if closing:
            lines[-1] += "".join(f" {it}" for it in closing[0])
            piece = piece[closing.end():]
        opening = piece.endswith("(")
        piece = piece.rstrip("(") if opening else piece
        for sentence in re.split(r"(?<=\.) (?=[A-Z])", piece.strip()):
            lines += textwrap.wrap(sentence, 78, break_long_words=False, break_on_hyphens=False)
        if opening:
            lines.append("(")
    # an opening bracket belongs to the command behind it
    joined = []
    for line in lines:
        if joined and joined[-1] == "(":
            joined[-1] = ".Li ( " + line[4:]
        else:
            joined.append(line)
    return "\n".join(joined)


def manual(old, blocks):
    items = []
    for block in blocks:
        if block.kind == "refused":
            items.append(f".It {block.name}\n{as_manual(block.text('means'))}")
            if block.text("do") and block.text("do") != "Nothing.":
                items.append(as_manual(block.text("do")))
    head, found = '.\\" table\n', "\n".join(items)
    new = re.sub(r'\.\\" table\n.*?\.\\" end of table', lambda _: f'{head}{found}\n.\\" end of table', old, flags=re.S)
    if new == old and found not in old:
        sys.exit(f"refusals.py: {MANUAL} has no place for the table")
    return new


def main():
    os.chdir(TOP)
    blocks = read_table(TABLE)
    wrong = 0
    for path, make in ((SENTENCES, lambda _, it: sentences(it)), (DOCUMENT, document), (MANUAL, manual)):
        old = open(path, encoding="utf-8").read() if os.path.exists(path) else ""
        new = make(old, blocks)
        if new == old:
            continue
        if "--check" in sys.argv[1:]:
            print(f"{path} is not that of {TABLE}: run docs/refusals.py")
            wrong = 1
        else:
            with open(path, "w", encoding="utf-8") as out:
                out.write(new)
    return wrong


if __name__ == "__main__":
    sys.exit(main())
