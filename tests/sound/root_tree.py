"""Part 1, on what the root tree has beside root items: its directory 6, and the files of the old free space cache."""

import stat

from . import extents, forms, inodes, names
from .volume import Tree


class Entries(names.FileTree):
    """The inodes and entries of the root tree. All that is wrong with them is one clause."""

    def found(self, clause, where, what):
        self.volume.found("1.root-tree", where, what)


def check(volume):
    """1.root-tree: the root tree has the directory 6 (btrfs check), and its inodes, entries and file extents are as
    Linux's tree-checker wants those of any tree: check_inode_item, check_inode_ref, check_dir_item,
    check_extent_data_item.
    1.default: the entry `default` of the directory 6, where it is, names a subvolume that is there
    (get_default_subvol_objectid of Linux, without which the volume is not mounted but by a subvolume's number)."""
    root = volume.trees[forms.ROOT_TREE]
    tree = Tree(forms.ROOT_TREE, root.root)
    tree.items = list(root.of_kind(forms.INODE, forms.INODE_REF, forms.DIR_ITEM, forms.DIR_INDEX, forms.FILE_EXTENT))
    files = Entries(volume, tree)
    if forms.ROOT_DIRECTORY not in files.inodes:
        volume.found("1.root-tree", forms.ROOT_DIRECTORY, "the root tree has no directory")
    for number, inode in files.inodes.items():
        if number != forms.ROOT_DIRECTORY and not forms.FIRST_FREE <= number <= forms.LAST_FREE:
            volume.found("1.root-tree", number, "no inode has such a number")
        if stat.S_ISDIR(inode.mode) and inode.nlink > 1:
            volume.found("1.root-tree", number, f"a directory has {inode.nlink} links")
    names.check_entries(files)
    inodes.check_modes(files)
    inodes.check_flags(files)
    inodes.check_generations(files)
    extents.check([files])
    for _, entry in files.hashed:
        if entry.name == b"default" and entry.location.objectid not in volume.trees:
            volume.found("1.default", entry.location.objectid, "the tree that is mounted by default is not there")
