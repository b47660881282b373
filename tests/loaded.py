"""The program that tests/failing.py and tests/torn.py load a library into, and that library.

The program is that of the environment's RECONV, or else crates/reiserconv/out/reiserconv, as `rt ci` builds it. Into the one in release/, which is made of
it, no library can be loaded."""

import os
import shutil
import struct
import subprocess
import sys
from pathlib import Path

TOP = Path(__file__).resolve().parent.parent
PROGRAM = os.environ.get("RECONV", str(TOP / "crates/reiserconv/out/reiserconv"))
# The kind of a segment that names the loader of a program.
INTERPRETER = 3


def takes_libraries(path):
    """Whether a program has a loader, which loads libraries into it."""
    with open(path, "rb") as program:
        head = program.read(64)
        if head[:6] != b"\x7fELF\x02\x01":
            return False
        (first,), (size, count) = struct.unpack_from("<Q", head, 32), struct.unpack_from("<HH", head, 54)
        program.seek(first)
        heads = program.read(size * count)
    return any(struct.unpack_from("<I", heads, size * n)[0] == INTERPRETER for n in range(count))


def lack():
    """What is not there that these tests need, or nothing."""
    if not os.access(PROGRAM, os.X_OK):
        return f"there is no {PROGRAM}: `rt ci` builds it, and so does tools/prove.py --program reiserconv; or RECONV names another one"
    if not takes_libraries(PROGRAM):
        return f"no library can be loaded into {PROGRAM}, as into those of release/"
    if not (shutil.which("cc") or shutil.which("gcc")):
        return "there is no C compiler"
    return None


def begin(what):
    """Ends where something is lacking. Only where CI=true is that a failure."""
    lacking = lack()
    if lacking:
        print(f"skipped: {what}, since {lacking}")
        sys.exit(1 if os.environ.get("CI") == "true" else 0)


def library(folder):
    """Makes the library in a folder, and gives its path."""
    shim = f"{folder}/refuse.so"
    compiler = shutil.which("cc") or shutil.which("gcc")
    subprocess.run([compiler, "-shared", "-fPIC", "-O1", "-o", shim, TOP / "tests/failing/refuse.c", "-ldl"], check=True)
    return shim
