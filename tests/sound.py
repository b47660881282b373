#!/usr/bin/env python3
"""Decides whether a Btrfs volume is sound: sound.py VOLUME.

It prints `sound`, or for each clause that is broken a line `PART.CLAUSE WHERE WHAT` (tests/sound/README.md has the
clauses). The status is 0 where the volume is sound, 1 where it is not, and 2 where it has a form that is not judged,
which standard error then tells."""

import sys

sys.dont_write_bytecode = True

from sound.judge import judge  # noqa: E402
from sound.volume import Unsupported  # noqa: E402


def main():
    if len(sys.argv) != 2:
        print("usage: sound.py VOLUME", file=sys.stderr)
        return 2
    try:
        findings = judge(sys.argv[1])
    except Unsupported as form:
        print(f"not judged: {form}", file=sys.stderr)
        return 2
    lines = list(findings.lines())
    print("\n".join(lines) if lines else "sound")
    return 1 if lines else 0


if __name__ == "__main__":
    sys.exit(main())
