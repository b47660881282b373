"""The changed volumes: each is a sound volume with one thing changed. A change is a function of an `Edit`; it is
listed under the clause that it breaks, or under none where nothing that matters is changed, so that the volume stays
sound."""

import stat
import struct

from . import forms
from .disk import name_hash
from .forms import Key
from .names import FileTree

CHANGES = []
ROOT = forms.FIRST_FREE
TREE = forms.FILE_TREE


def change(clause):
    """Lists a function as a change that breaks this clause; its name is the change's."""

    def listed(function):
        CHANGES.append((function.__name__, clause, function))
        return function

    return listed


def same_but(*changes):
    """A change of fields of the superblock: places, layouts and values."""

    def done(edit):
        for at, layout, value in changes:
            edit.super(at, layout, value)

    return done


class Picks:
    """Objects of the tree of files that changes are made of, chosen by what they are."""

    def __init__(self, edit):
        self.files = FileTree(edit.volume, edit.volume.trees[TREE])

    def inode(self, kind, what=lambda number: True):
        """The first inode of a kind with one name in the root directory, of which something holds."""
        for number, inode in sorted(self.files.inodes.items()):
            names = self.files.names_of[number]
            if number != ROOT and stat.S_IFMT(inode.mode) == kind and len(names) == 1 and names[0].directory == ROOT and what(number):
                return number
        raise LookupError("the volume has no such object")

    def with_extents(self, number, kind):
        """Whether an inode has extents, all of this kind, and no holes that are told."""
        extents = self.files.extents[number]
        return extents and all(it.kind == kind and (it.kind == forms.INLINE or it.disk) for _, it in extents)

    def file(self):
        """A file with extents on the disk, each of at least two blocks."""
        extents = self.files.extents
        return self.inode(
            stat.S_IFREG,
            lambda it: self.with_extents(it, forms.REGULAR) and all(part.length > 4096 for _, part in extents[it]),
        )

    def small(self):
        """A file with inline data."""
        return self.inode(stat.S_IFREG, lambda it: self.with_extents(it, forms.INLINE))

    def symlink(self):
        return self.inode(stat.S_IFLNK)

    def sparse(self):
        """A file with holes."""
        files = self.files
        return self.inode(stat.S_IFREG, lambda it: files.extents[it] and files.inodes[it].size - files.inodes[it].nbytes >= 4096)

    def folder(self):
        """A directory with names in it."""
        return self.inode(stat.S_IFDIR, lambda it: self.files.entries_of[it])

    def extent(self, number):
        """The place of the first extent of an inode, and the extent."""
        return self.files.extents[number][0]


def extent_key(picks, number):
    return Key(number, forms.FILE_EXTENT, picks.extent(number)[0])


def inode_key(number):
    return Key(number, forms.INODE, 0)


def entry_body(target, kind, name):
    return forms.KEY.pack(*target) + struct.pack("<QHHB", 1, 0, len(name), kind) + name


def take_name(edit, picks, number):
    """Takes the name of an inode away, and its bytes from the directory's size. Gives the name, and what its entry
    had."""
    (name,) = picks.files.names_of[number]
    entry = picks.files.indexed[name.directory, name.index]
    edit.remove(TREE, Key(name.directory, forms.DIR_INDEX, name.index))
    edit.remove(TREE, Key(name.directory, forms.DIR_ITEM, name_hash(name.name)))
    edit.remove(TREE, Key(number, forms.INODE_REF, name.directory))
    edit.add(TREE, inode_key(name.directory), 16, "<Q", -2 * len(name.name))
    return name, entry


def give_name(edit, number, name, kind):
    """Gives an inode a name, with all that belongs to one."""
    body = entry_body(Key(number, forms.INODE, 0), kind, name.name)
    edit.insert(TREE, Key(name.directory, forms.DIR_INDEX, name.index), body)
    edit.insert(TREE, Key(name.directory, forms.DIR_ITEM, name_hash(name.name)), body)
    edit.insert(TREE, Key(number, forms.INODE_REF, name.directory), struct.pack("<QH", name.index, len(name.name)) + name.name)
    edit.add(TREE, inode_key(name.directory), 16, "<Q", 2 * len(name.name))


def rename(edit, picks, number, **fields):
    """Gives an inode another name, directory or index."""
    name, entry = take_name(edit, picks, number)
    give_name(edit, number, name._replace(**fields), entry.kind)


def free_address(edit, kind, length=4096):
    """An address in a chunk of a kind at which no extent lies, behind all that do."""
    extents = [(key.objectid, key.offset if key.kind == forms.EXTENT else edit.volume.super.nodesize)
               for key in edit.keys(forms.EXTENT_TREE, forms.EXTENT, forms.METADATA)]  # fmt: skip
    for chunk in edit.volume.chunks:
        if chunk.kind & ~forms.DUP == kind:
            ends = [at + size for at, size in extents if chunk.logical <= at < chunk.logical + chunk.length]
            end = max(ends, default=chunk.logical)
            if end + length <= chunk.logical + chunk.length:
                return end
    raise LookupError("no chunk of this kind has free space")
