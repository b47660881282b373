#!/usr/bin/env python3
"""Runs a program as on Linux 3.2: each call that came to Linux later is answered with "no such call" (ENOSYS).

    tests/outside/old_linux.py PROGRAM WORDS..

It is for x86-64, and needs a Linux whose processes may filter their own calls (seccomp); where that can't be done its status is 125."""

import ctypes
import errno
import os
import struct
import sys

# The last call of Linux 3.2 on x86-64, process_vm_writev; later ones have higher numbers.
LAST = 311
NO_NEW_PRIVILEGES, SECCOMP, BY_FILTER = 38, 22, 2
LOAD, JUMP_GREATER, ANSWER = 0x20, 0x25, 0x06
ALLOW, ERROR = 0x7FFF0000, 0x00050000


def main():
    # the number of a call is the first word of what a filter sees
    steps = [(LOAD, 0, 0, 0), (JUMP_GREATER, 0, 1, LAST), (ANSWER, 0, 0, ERROR | errno.ENOSYS), (ANSWER, 0, 0, ALLOW)]
    text = ctypes.create_string_buffer(b"".join(struct.pack("<HBBI", *it) for it in steps))
    filter_of = struct.pack("<HxxxxxxQ", len(steps), ctypes.addressof(text))
    prctl = ctypes.CDLL(None).prctl
    if prctl(NO_NEW_PRIVILEGES, 1, 0, 0, 0) or prctl(SECCOMP, BY_FILTER, filter_of, 0, 0):
        print("old_linux.py: calls can't be filtered here", file=sys.stderr)
        sys.exit(125)
    os.execv(sys.argv[1], sys.argv[1:])


if len(sys.argv) < 2:
    sys.exit(__doc__)
main()
