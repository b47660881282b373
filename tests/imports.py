#!/usr/bin/env python3
"""What the proofs of a crate import stands in one module, proofs/Imports.antt, and a proof names what it needs of that.

    tests/imports.py            # says where it is otherwise, and ends with 1 then
    tests/imports.py --write    # rewrites the imports of all crates, or of those that are named
    tests/imports.py NAME ...   # these crates alone

A module that two proofs of a crate import stands in Imports.antt; one that a single proof imports is imported there. A proof
of the same crate is imported by its own name, since Imports.antt stands below all proofs. Where two modules have a word of
one name, Imports.antt has that which more proofs use, and the other is imported by its own name.
"""

import collections
import pathlib
import re
import sys

TOP = pathlib.Path(__file__).resolve().parent.parent / "crates"
IMPORT = re.compile(r"use (Rattle\.\S+)\.\{([^}]*)\}$")


def imports_module(crate):
    """The module of a crate that its proofs import from."""
    return f"Rattle.{crate}.proofs.Imports"


def read_names(text):
    """The names between braces: pairs of the name in its module and the name here."""
    names = []
    for name in text.split(","):
        there, _, here = name.strip().partition(" as ")
        if there:
            names.append((there, here or there))
    return names


def read_imports(path):
    """What Imports.antt takes: for each word its module."""
    words = {}
    if path.exists():
        for line in path.read_text().splitlines():
            found = re.match(r"(?:unfoldable )?pub (use .*)", line)
            found = found and IMPORT.match(found.group(1))
            if found:
                for there, _ in read_names(found.group(2)):
                    words[there] = found.group(1)
    return words


def is_shared(module, crate):
    """Whether an import of this module may stand in Imports.antt."""
    return not module.startswith(f"Rattle.{crate}.proofs.")


class Proof:
    """A file of proofs: its head, its imports in order, and the lines behind them."""

    def __init__(self, path, crate, words):
        self.path = path
        self.text = path.read_text()
        self.imports = collections.OrderedDict()
        self.kept = []
        self.first = None
        self.lines = self.text.splitlines()
        for at, line in enumerate(self.lines):
            found = IMPORT.match(line)
            if found:
                self.take(found.group(1), read_names(found.group(2)), crate, words, at)

    def take(self, module, names, crate, words, at):
        """Notes one import, under the module that a word comes from."""
        through = module == imports_module(crate)
        if not through and not is_shared(module, crate):
            return
        self.first = at if self.first is None else self.first
        self.kept.append(at)
        for there, here in names:
            home = words[there] if through else module
            self.imports.setdefault(home, []).append((there, here))

    def rewritten(self, crate, chosen):
        """The text with its imports by way of Imports.antt."""
        if self.first is None:
            return self.text
        shared, own = [], []
        for module, names in self.imports.items():
            far = [n for n in names if chosen.get(n[0]) != module]
            shared += [n for n in names if chosen.get(n[0]) == module]
            if far:
                own.append(line_of(module, far))
        lines = [line_of(imports_module(crate), shared)] if shared else []
        lines += own
        out = []
        for at, line in enumerate(self.lines):
            if at == self.first:
                out += lines
            if at not in self.kept:
                out.append(line)
        return "\n".join(out) + "\n"


def line_of(module, names):
    """An import of names."""
    seen = list(collections.OrderedDict.fromkeys(names))
    shown = [t if t == h else f"{t} as {h}" for t, h in seen]
    return f"use {module}.{{{', '.join(shown)}}}"


def choose(proofs):
    """For each word that stands in Imports.antt its module."""
    users = collections.Counter()
    uses = collections.defaultdict(collections.Counter)
    for proof in proofs:
        for module, names in proof.imports.items():
            users[module] += 1
            for there, _ in set(names):
                uses[there][module] += 1
    chosen = {}
    for word, modules in uses.items():
        shared = [m for m in modules if users[m] > 1]
        if shared:
            chosen[word] = max(shared, key=lambda m: (modules[m], m))
    return chosen


def opened(proofs):
    """The words that a proof unfolds, which are handed on as such."""
    words = set()
    for proof in proofs:
        for line in proof.lines:
            found = re.match(r"\s*unfolding (.*)", line)
            words.update(found.group(1).split() if found else [])
    return words


def imports_text(crate, chosen, opens):
    """The text of Imports.antt."""
    modules = collections.defaultdict(list)
    for word, module in chosen.items():
        modules[order(module), module, word in opens].append(word)
    lines = [f"-- What the proofs of {crate} import of std, of lower crates and of its specs."]
    for at in sorted(modules):
        front = "unfoldable pub " if at[2] else "pub "
        lines.append(front + line_of(at[1], [(w, w) for w in sorted(modules[at])]))
    return "\n".join(lines) + "\n"


def order(module):
    """The standard library comes first."""
    return 0 if module.startswith("Rattle.std.") else 1


def listed(path, has_imports):
    """The text of Lib.antt with the module Imports, or without it."""
    lines = path.read_text().splitlines() if path.exists() else []
    lines = [l for l in lines if l != "pub mod Imports"]
    if has_imports:
        at = next((i for i, l in enumerate(lines) if l.startswith("pub mod ") and l > "pub mod Imports"), len(lines))
        lines.insert(at, "pub mod Imports")
    return "\n".join(lines) + "\n" if lines else ""


def wanted(crate):
    """The files of a crate's proofs as they should read."""
    folder = TOP / crate / "proofs"
    imports_path = folder / "Imports.antt"
    words = read_imports(imports_path)
    paths = sorted(p for p in folder.rglob("*.antt") if p != imports_path)
    proofs = [Proof(p, crate, words) for p in paths]
    chosen = choose(proofs)
    texts = {p.path: p.rewritten(crate, chosen) for p in proofs}
    texts[imports_path] = imports_text(crate, chosen, opened(proofs)) if chosen else ""
    lib = folder / "Lib.antt"
    texts[lib] = listed(lib, bool(chosen))
    return texts


def main():
    """Checks or rewrites."""
    write = "--write" in sys.argv[1:]
    names = [a for a in sys.argv[1:] if not a.startswith("-")]
    crates = names or sorted(p.parent.name for p in TOP.glob("*/proofs"))
    wrong = 0
    for crate in crates:
        for path, text in wanted(crate).items():
            now = path.read_text() if path.exists() else ""
            if now == text:
                continue
            wrong += 1
            if write:
                if text:
                    path.write_text(text)
                elif path.exists():
                    path.unlink()
            else:
                print(path.relative_to(TOP.parent))
    print(f"{wrong} files {'rewritten' if write else 'with imports that should stand otherwise'}")
    return 0 if write or not wrong else 1


if __name__ == "__main__":
    sys.exit(main())
