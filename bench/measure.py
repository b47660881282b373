#!/usr/bin/env python3
"""measure.py OUTPUT WORDS..: runs a program three times, and prints the least processor time, of the program and the kernel
for it, in milliseconds, and the most memory that it held, in KiB. With all in the page cache, other work on the machine
tells little. OUTPUT gets its output, and its input is the file that FROM names, if any. Where COPY names a file, the last word
is a copy of it that is made anew before each run."""

import os
import subprocess
import sys

best, held = 1e9, 0
for _ in range(3):
    if "COPY" in os.environ:
        subprocess.run(["cp", "--sparse=always", os.environ["COPY"], sys.argv[-1]], check=True)
    with open(sys.argv[1], "wb") as out, open(os.environ.get("FROM", os.devnull), "rb") as given:
        child = subprocess.Popen(sys.argv[2:], stdin=given, stdout=out)
        _, status, used = os.wait4(child.pid, 0)
    if status:
        sys.exit(f"{sys.argv[2]} failed")
    best, held = min(best, used.ru_utime + used.ru_stime), max(held, used.ru_maxrss)
print(round(best * 1000), held)
