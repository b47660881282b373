#!/usr/bin/env python3
"""Checks that the numbers of both formats stand in the sources by their names, without any proof. The names are those of
crates/btrfs_format, crates/reiserfs_format and the file modes of crates/vol_block, as Linux has them.

    tests/numbers.py          prints a line for each bare number, FILE:LINE: NUMBER is NAME, and a last line `N bare numbers`

Numbers that mean only one thing in a format are sought wherever such a number can stand, the others where a pattern below
tells what is meant. Comments, texts and crates of tests are passed over: tests have the bytes that stock tools wrote. The
status is 1 where there is a bare number."""

import os
import re
import sys

# crates that have the names, and those whose numbers come from outside
PASSED = {"btrfs_format", "reiserfs_format", "castagnoli", "sample_volume"}
TESTS = re.compile(r"_tests$|_test_kit$|^volume_samples$|^outside_mem$")

KEYS = {
    "12": "INODE_REF", "13": "INODE_EXTREF", "24": "XATTR_ITEM", "48": "ORPHAN_ITEM", "84": "DIR_ITEM", "96": "DIR_INDEX",
    "108": "EXTENT_DATA", "128": "EXTENT_CSUM", "132": "ROOT_ITEM", "144": "ROOT_BACKREF", "156": "ROOT_REF",
    "168": "EXTENT_ITEM", "169": "METADATA_ITEM", "176": "TREE_BLOCK_REF", "178": "EXTENT_DATA_REF",
    "182": "SHARED_BLOCK_REF", "184": "SHARED_DATA_REF", "192": "BLOCK_GROUP_ITEM", "204": "DEV_EXTENT", "216": "DEV_ITEM",
    "228": "CHUNK_ITEM",
}
TREES = {"1": "ROOT_TREE", "2": "EXTENT_TREE", "3": "CHUNK_TREE", "4": "DEV_TREE", "5": "FS_TREE", "7": "CSUM_TREE",
         "256": "CONV_IMAGE_SUBVOL"}
ANY_KEY = {"1": "INODE_ITEM", **KEYS}

# each a pattern whose group 1 is the number, and what the numbers are; a line is sought without its comment and its texts
PATTERNS = [
    (r"\b2 \^ 64 - (9|10)\b", {"9": "DATA_RELOC_TREE", "10": "EXTENT_CSUM_OBJECTID"}),
    (r"\bu64::MAX - (8|9)\b", {"8": "DATA_RELOC_TREE", "9": "EXTENT_CSUM_OBJECTID"}),
    (r"\b(0x341|0x361)\b", {"0x341": "a sum of features", "0x361": "a sum of features"}),
    (r"\b(0x41ED|0x8100|0o40755|0o100400)\b", {"0x41ED": "DIRECTORY_MODE", "0o40755": "DIRECTORY_MODE", "0x8100": "IMAGE_MODE",
                                              "0o100400": "IMAGE_MODE"}),
    (r"(?<![\w.])(67108864|67_108_864)\b", {"67108864": "SECOND_MIRROR", "67_108_864": "SECOND_MIRROR"}),
    (r"(?<![\w.])(67108880|16400)\b", {"67108880": "SECOND_MIRROR_END", "16400": "FIRST_MIRROR_END"}),
    (r"\bmake_key (?:\([^()]*\)|[\w.]+) (\d+)\b", ANY_KEY),
    (r"\bkey_of\([^,]+, (\d+),", ANY_KEY),
    (r"\bobjectid = [^;{}]+; kind = (\d+)\b", ANY_KEY),
    (r"(?:key|location|\.0)\.kind (?:==|≡|≢) (\d+)\b", ANY_KEY),
    (r"\beqb [\w.]*kind (\d+)\b", KEYS),
    (r"\b(?:of_kind|part_of_kind \S+|IsOf \S+) (\d+)\b", ANY_KEY),
    (r"\b(?:items_of_tree|nodes_from|root_of) [\w.]+ (\d+)\b", TREES),
    (r"\b(?:tree_for|TreeStands) [\w.]+ (?:\([^()]*\)|[\w.]+) (\d+)\b", TREES),
    (r"\btree = (\d+) *[;}]", TREES),
    (r"\b(?:chunk_objectid) *(?:=|:|≡) *(256)\b", {"256": "FIRST_CHUNK_TREE_OBJECTID"}),
    (r"\broot_dir_objectid *(?:=|:) *(6)\b", {"6": "ROOT_TREE_DIR_OBJECTID"}),
    (r"\bBadBtrfs (65536)\b", {"65536": "SUPER_INFO_OFFSET"}),
    (r"\b(?:bytenr|address) *(?:=|:) *(65536)\b", {"65536": "SUPER_INFO_OFFSET"}),
    (r"\bblock_at [\w.]+ (16)\b", {"16": "SUPER_BLOCK"}),
    (r"\bDamaged (16)\b", {"16": "SUPER_BLOCK"}),
    (r"\b(0xFFFF_?FFFE)\b", {"0xFFFFFFFE": "V1_INDIRECT_UNIQUENESS", "0xFFFF_FFFE": "V1_INDIRECT_UNIQUENESS"}),
]
# what a line has that any of these can fit
WORDS = re.compile(r"2 \^ 64 - |u64::MAX - |0x[38F]|0x41|0o|67108|67_108|16400|make_key|key_of|kind|IsOf|items_of|nodes_from|root_of"
                   r"|tree|Tree|objectid|BadBtrfs|bytenr|address|block_at|Damaged")

# a line that has one of these has a number of another meaning
PLACES = [
    (r"btr_super/", r"\b(?:u64_at|u32_at|u16_at|drop-drop|same|array_at)\b"),    # offsets in the superblock
    (r"reiser_", r"\b(?:make_key|key_of)\b"),                                     # keys of ReiserFS are others
]


def bare(text):
    """A line without its comment and its texts."""
    text = re.sub(r'"(?:[^"\\]|\\.)*"', '""', text)
    return re.sub(r"(?:^|\s)(?://|--).*$", "", text)


def numbers_in(path, names):
    """The bare numbers of a file, as (line, number, name)."""
    with open(path, encoding="utf-8") as lines:
        for number, line in enumerate(lines, 1):
            if not WORDS.search(line) or not re.search(r"\d", line):
                continue
            text = bare(line)
            if any(re.search(where, path) and re.search(what, text) for where, what in PLACES):
                continue
            for pattern, named in names:
                for found in pattern.finditer(text):
                    value = found.group(1)
                    if value in named:
                        yield number, value, named[value]


def sources(top):
    """The files of code, definitions and proofs."""
    for crate in sorted(os.listdir(os.path.join(top, "crates"))):
        if crate in PASSED or TESTS.search(crate):
            continue
        for part in ("src", "specs", "proofs"):
            for folder, _, files in os.walk(os.path.join(top, "crates", crate, part)):
                for file in sorted(files):
                    if file.endswith((".rt", ".antt")) and "tests" not in os.path.join(folder, file):
                        yield os.path.join(folder, file)


def main():
    top = os.path.dirname(os.path.dirname(os.path.abspath(__file__)))
    names = [(re.compile(pattern), named) for pattern, named in PATTERNS]
    count = 0
    for path in sources(top):
        for line, number, name in numbers_in(path, names):
            print(f"{os.path.relpath(path, top)}:{line}: {number} is {name}")
            count += 1
    print(f"{count} bare numbers")
    return 1 if count else 0


sys.exit(main())
