"""Part 2, on inodes: what an inode's item tells is so."""

import stat

from . import forms
from .extents import counted
from .names import ENTRY_KIND, ROOT

IMMUTABLE, APPEND = 0x40, 0x80
# all flags that Linux knows: those of BTRFS_INODE_FLAG_MASK, and fs-verity
KNOWN_FLAGS = 0xFFF | 1 << 31 | 1 << 32
MODE_BITS = 0o177777


def check_there(files):
    """2.there: an item of an inode has an inode item (check_prev_ino of Linux's tree-checker; I_ERR_NO_INODE_ITEM of
    btrfs check), and the number of an inode is from 256 to 2^64 - 256 (check_inode_key)."""
    for number, kinds in files.owned.items():
        if number not in files.inodes:
            files.found("2.there", number, f"there are items of kinds {sorted(kinds)} and no inode item")
        elif not ROOT <= number <= forms.LAST_FREE:
            files.found("2.there", number, "no inode has such a number")


def check_root(files):
    """2.root: inode 256 is there, and is a directory without another name than `..` in itself (check_root_dir of
    btrfs check)."""
    root = files.inodes.get(ROOT)
    if root is None or not stat.S_ISDIR(root.mode):
        files.found("2.root", ROOT, "the tree has no root directory")
    elif root.nlink != 1 or len(files.names_of[ROOT]) != 1:
        files.found("2.root", ROOT, f"the root directory has {root.nlink} links and {len(files.names_of[ROOT])} names")


def check_modes(files):
    """2.mode: a mode has a kind that Linux knows, and no other bits than those of kinds and rights (check_inode_item
    of Linux's tree-checker; I_ERR_INVALID_IMODE of btrfs check)."""
    for number, inode in files.inodes.items():
        if inode.mode & ~MODE_BITS or stat.S_IFMT(inode.mode) not in ENTRY_KIND:
            files.found("2.mode", number, f"the mode is {inode.mode:o}")


def check_links(files):
    """2.links: the count of links is the number of names (I_ERR_LINK_COUNT_WRONG of btrfs check). A directory has at
    most one (check_inode_item of Linux's tree-checker).
    2.orphan: an inode without names has an orphan item, by which Linux ends its removal (I_ERR_NO_ORPHAN_ITEM of
    btrfs check)."""
    for number, inode in files.inodes.items():
        names = len(files.names_of[number])
        if inode.nlink != names:
            files.found("2.links", number, f"{inode.nlink} links are told, and {names} names are there")
        if stat.S_ISDIR(inode.mode) and max(names, inode.nlink) > 1:
            files.found("2.links", number, f"a directory has {names} names")
        if not names and number not in files.orphans:
            files.found("2.orphan", number, "the inode has no name and no orphan item")


def check_sizes(files):
    """2.size: the size of a directory is twice the bytes of its names (I_ERR_DIR_ISIZE_WRONG of btrfs check).
    2.nbytes: a file or symlink that has a name tells the bytes of its extents, preallocated ones among them
    (I_ERR_FILE_NBYTES_WRONG). That of a directory is not compared, since mkfs.btrfs writes the size of a node there;
    that of a file being removed neither."""
    for number, inode in files.inodes.items():
        if stat.S_ISDIR(inode.mode):
            size = 2 * sum(len(entry.name) for _, entry in files.entries_of[number])
            if inode.size != size:
                files.found("2.size", number, f"the size {inode.size} is told, and the names take {size}")
        elif inode.nlink and (stat.S_ISREG(inode.mode) or stat.S_ISLNK(inode.mode)):
            bytes_ = sum(counted(extent) for _, extent in files.extents[number])
            if inode.nbytes != bytes_:
                files.found("2.nbytes", number, f"{inode.nbytes} bytes are told, and the extents have {bytes_}")


def check_flags(files):
    """2.flags: there are no flags that Linux does not know (check_inode_item of Linux's tree-checker); only a
    regular file has the flag nodatasum (btrfs_inherit_iflags, btrfs_create_new_inode of Linux); no symlink is
    immutable or append-only (I_ERR_ODD_INODE_FLAGS of btrfs check)."""
    for number, inode in files.inodes.items():
        wrong = inode.flags & ~KNOWN_FLAGS
        if not stat.S_ISREG(inode.mode):
            wrong |= inode.flags & forms.NODATASUM
        if stat.S_ISLNK(inode.mode):
            wrong |= inode.flags & (IMMUTABLE | APPEND)
        if wrong:
            files.found("2.flags", number, f"the flags {wrong:#x} are wrong here")


def check_generations(files):
    """2.generation: the generation and the transid of an inode are at most the superblock's plus 1 (check_inode_item
    of Linux's tree-checker; I_ERR_INVALID_GEN of btrfs check)."""
    highest = files.volume.super.generation + 1
    for number, inode in files.inodes.items():
        if max(inode.generation, inode.transid) > highest:
            files.found("2.generation", number, f"the generation {inode.generation} or the transid {inode.transid} is too high")


def check(trees):
    for files in trees:
        check_there(files)
        check_root(files)
        check_modes(files)
        check_links(files)
        check_sizes(files)
        check_flags(files)
        check_generations(files)
