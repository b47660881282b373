"""Decides whether a Btrfs volume is sound, clause by clause: README.md in this folder has the definition in words.

This is a plain, slow program. It reads all metadata into memory, and it says how each rule is to be understood, so
that others can be compared with it."""
