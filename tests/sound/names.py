"""Part 2: the trees of files. This file reads the items of one tree, and has the rules of names; `inodes` has those
of inodes, and `extents` those of the parts of files."""

import stat
from collections import Counter, defaultdict

from . import forms
from .disk import extref_hash, name_hash
from .forms import OffForm
from .nodes import is_subvolume

KINDS = (
    forms.INODE, forms.INODE_REF, forms.EXTREF, forms.XATTR, forms.ORPHAN, forms.DIR_ITEM, forms.DIR_INDEX, forms.FILE_EXTENT,
)  # fmt: skip
# what an entry says of the kind of what it names
ENTRY_KIND = {
    stat.S_IFREG: 1, stat.S_IFDIR: 2, stat.S_IFCHR: 3, stat.S_IFBLK: 4, stat.S_IFIFO: 5, stat.S_IFSOCK: 6, stat.S_IFLNK: 7,
}  # fmt: skip
XATTR_KIND = 8
FIRST_INDEX = 2
ROOT = forms.FIRST_FREE


class FileTree:
    """The items of a tree of files, read. `indexed` is of (directory, index) each, `hashed` a list of (directory,
    entry), `names` one of (inode, name) of inode refs and extrefs, `extents` of each inode the list of (place,
    extent)."""

    def __init__(self, volume, tree):
        self.volume, self.tree, self.number = volume, tree, tree.number
        self.inodes, self.indexed, self.hashed, self.names = {}, {}, [], []
        self.extents, self.orphans, self.owned = defaultdict(list), set(), defaultdict(set)
        readers = {
            forms.INODE: self.read_inode,
            forms.INODE_REF: lambda key, body: self.names.extend((key.objectid, it) for it in forms.inode_refs(key.offset, body)),
            forms.EXTREF: self.read_extrefs,
            forms.DIR_ITEM: self.read_hashed,
            forms.DIR_INDEX: self.read_indexed,
            forms.XATTR: self.read_xattr,
            forms.FILE_EXTENT: self.read_extent,
        }
        for key, body in tree.items:
            if key.kind == forms.ORPHAN:
                self.orphans.add(key.offset)
            elif key.kind not in KINDS:
                self.found("2.kind", key.objectid, f"a tree of files has an item of kind {key.kind}")
            else:
                self.owned[key.objectid].add(key.kind)
                try:
                    readers[key.kind](key, body)
                except OffForm as off:
                    self.found("2.form", key.objectid, f"an item of kind {key.kind} at {key.offset} {off}")
        self.entries_of = defaultdict(list)
        for (directory, index), entry in self.indexed.items():
            self.entries_of[directory].append((index, entry))
        self.names_of = defaultdict(list)
        for inode, name in self.names:
            self.names_of[inode].append(name)

    def found(self, clause, where, what):
        self.volume.found(clause, where if self.number == forms.FILE_TREE else f"{where}@{self.number}", what)

    def read_inode(self, key, body):
        if key.offset:
            raise OffForm("has another place than 0")
        self.inodes[key.objectid] = forms.inode(body)

    def read_extrefs(self, key, body):
        """2.hash: an extref has the hash of its directory and name (btrfs_extref_hash of Linux)."""
        for name in forms.extrefs(body):
            self.names.append((key.objectid, name))
            if extref_hash(name.directory, name.name) != key.offset:
                self.found("2.hash", key.objectid, f"an extref stands under the hash {key.offset}")

    def read_hashed(self, key, body):
        """2.hash: a dir item has the hash of its name (check_dir_item of Linux's tree-checker)."""
        for entry in forms.entries(body):
            self.hashed.append((key.objectid, entry))
            if name_hash(entry.name) != key.offset:
                self.found("2.hash", key.objectid, f"the name {entry.name!r} stands under the hash {key.offset}")

    def read_indexed(self, key, body):
        """2.form: a dir index has one entry (I_ERR_DUP_DIR_INDEX of btrfs check).
        2.index: its number is at least 2, since 0 and 1 are those of `.` and `..` (BTRFS_DIR_START_INDEX; Linux
        lists no lower one)."""
        entry, *others = forms.entries(body)
        if others:
            raise OffForm("has more than one entry")
        if key.offset < FIRST_INDEX:
            self.found("2.index", key.objectid, f"the name {entry.name!r} has the index {key.offset}")
        self.indexed[key.objectid, key.offset] = entry

    def read_xattr(self, key, body):
        """2.xattr: an attribute is an entry of type 8 that names nothing, with the hash of its name, of 1 to 255
        bytes, and each name once (check_dir_item of Linux's tree-checker)."""
        found = forms.entries(body)
        for entry in found:
            if entry.kind != XATTR_KIND or entry.location != forms.ZERO_KEY:
                self.found("2.xattr", key.objectid, f"the attribute {entry.name!r} has the type {entry.kind} and names {entry.location}")
            if not 1 <= len(entry.name) <= 255 or name_hash(entry.name) != key.offset:
                self.found("2.xattr", key.objectid, f"the attribute {entry.name!r} stands under the hash {key.offset}")
        if len({entry.name for entry in found}) != len(found):
            self.found("2.xattr", key.objectid, "an attribute stands twice")

    def read_extent(self, key, body):
        self.extents[key.objectid].append((key.offset, forms.file_extent(body)))


def check_entries(files):
    """2.entry: an entry has no data, a type from 1 to 7, and names an inode (number, 1, 0) or a tree (number, 132,
    any number) (check_dir_item, check_inode_key, check_root_key of Linux's tree-checker)."""
    everything = files.hashed + [(directory, entry) for (directory, _), entry in files.indexed.items()]
    for directory, entry in everything:
        target = entry.location
        names_inode = (target.kind, target.offset) == (forms.INODE, 0) and ROOT <= target.objectid <= forms.LAST_FREE
        names_tree = target.kind == forms.ROOT and is_subvolume(target.objectid)
        if entry.data or not 1 <= entry.kind <= 7 or not (names_inode or names_tree):
            files.found("2.entry", directory, f"the entry {entry.name!r} names {target} with the type {entry.kind}")


def check_names(files):
    """2.name: a name has 1 to 255 bytes, none of them `/` or zero, and is not `.` or `..` (the rules of names of
    Linux's VFS).
    2.name-twice: no name stands twice in a directory (the dir item of a name is one: btrfs_insert_dir_item of
    Linux)."""
    seen = set()
    for (directory, _), entry in files.indexed.items():
        name = entry.name
        if not 1 <= len(name) <= 255 or b"/" in name or b"\0" in name or name in (b".", b".."):
            files.found("2.name", directory, f"the name {name!r}")
        if (directory, name) in seen:
            files.found("2.name-twice", directory, f"the name {name!r} stands twice")
        seen.add((directory, name))


def check_pairs(files):
    """2.pair: the dir items and the dir indexes of a directory tell the same entries (REF_ERR_NO_DIR_ITEM,
    REF_ERR_NO_DIR_INDEX of btrfs check)."""

    def told(directory, entry):
        return directory, entry.name, entry.location, entry.kind

    indexed = Counter(told(directory, entry) for (directory, _), entry in files.indexed.items())
    hashed = Counter(told(directory, entry) for directory, entry in files.hashed)
    for it in indexed - hashed:
        files.found("2.pair", it[0], f"the dir index of {it[1]!r} has no such dir item")
    for it in hashed - indexed:
        files.found("2.pair", it[0], f"the dir item of {it[1]!r} has no such dir index")


def check_refs(files):
    """2.ref: an entry that names an inode, and a name that an inode tells, are the same names with the same indexes
    (REF_ERR_NO_INODE_REF, REF_ERR_NO_DIR_INDEX of btrfs check). Inode 256 tells one more, `..` in itself with the
    index 0 (check_root_dir of btrfs check)."""
    named = Counter(
        (entry.location.objectid, directory, index, entry.name)
        for (directory, index), entry in files.indexed.items()
        if entry.location.kind == forms.INODE
    )
    named[ROOT, ROOT, 0, b".."] += 1
    told = Counter((inode, name.directory, name.index, name.name) for inode, name in files.names)
    for inode, directory, _, name in named - told:
        files.found("2.ref", inode, f"the name {name!r} in {directory} has no inode ref")
    for inode, directory, _, name in told - named:
        files.found("2.ref", inode, f"the inode ref {name!r} has no entry in {directory}")


def check_targets(files):
    """2.target: the directory of an entry is a directory, and an inode that it names is there (I_ERR_NO_INODE_ITEM,
    I_ERR_ODD_DIR_ITEM of btrfs check).
    2.type: an entry's type is the kind of what it names, 2 for a tree (REF_ERR_FILETYPE_UNMATCH of btrfs check)."""
    for (directory, _), entry in files.indexed.items():
        above = files.inodes.get(directory)
        if above is None or not stat.S_ISDIR(above.mode):
            files.found("2.target", directory, f"the name {entry.name!r} stands in what is no directory")
        kind = ENTRY_KIND[stat.S_IFDIR]
        if entry.location.kind == forms.INODE:
            inode = files.inodes.get(entry.location.objectid)
            if inode is None:
                files.found("2.target", entry.location.objectid, f"the name {entry.name!r} in {directory} names no inode that is there")
                continue
            kind = ENTRY_KIND.get(stat.S_IFMT(inode.mode))
        if entry.kind != kind:
            files.found("2.type", directory, f"the entry {entry.name!r} has the type {entry.kind}")


def check_reached(files):
    """2.reached: from each directory with a name one comes to inode 256 by the directories above it. No directory
    can be moved below itself (rename of Linux's VFS), so no Linux leaves a ring; Linux's checkers don't look for
    one."""
    above = {entry.location.objectid: d for (d, _), entry in files.indexed.items() if entry.location.kind == forms.INODE and entry.kind == 2}
    known = {ROOT}
    for start in sorted(above):
        way, at = [], start
        while at in above and at not in known and at not in way:
            way.append(at)
            at = above[at]
        if at in known:
            known.update(way)
        elif at in way:
            files.found("2.reached", start, "a ring of directories that the root does not reach")


def check_tree_refs(volume, trees):
    """2.tree-ref: a root ref and its backref are the same, and the entry that they tell is there; an entry that names a
    tree has them, but in a snapshot, which keeps the entry and has none (create_pending_snapshot of Linux;
    REF_ERR_NO_ROOT_REF, .._BACKREF, .._DIR_INDEX of btrfs check).
    2.tree-named: a subvolume but 5 has a root backref ("fs tree not referenced" of btrfs check)."""
    forth, back = {}, {}
    for key, body in volume.trees[forms.ROOT_TREE].of_kind(forms.ROOT_REF, forms.ROOT_BACKREF):
        try:
            if key.kind == forms.ROOT_REF:
                forth[key.objectid, key.offset] = forms.root_ref(body)
            else:
                back[key.offset, key.objectid] = forms.root_ref(body)
        except OffForm as off:
            volume.found("2.tree-ref", key.objectid, f"the ref between two trees {off}")
    entries = {}
    for files in trees:
        for (directory, index), entry in files.indexed.items():
            if entry.location.kind == forms.ROOT:
                pair = files.number, entry.location.objectid
                told = forms.Named(directory, index, entry.name)
                entries.setdefault(pair, []).append(told)
                if forth.get(pair) != told and (pair in forth or not files.tree.offset):
                    files.found("2.tree-ref", directory, f"the entry {entry.name!r} has no root ref to {pair[1]}")
    for pair in sorted(forth.keys() | back.keys()):
        if forth.get(pair) != back.get(pair) or forth.get(pair) not in entries.get(pair, []):
            volume.found("2.tree-ref", pair[1], f"root ref, root backref and entry in {pair[0]} are not the same")
    named = {tree for _, tree in back}
    for number in volume.trees:
        if ROOT <= number < 1 << 48 and number not in named:
            volume.found("2.tree-named", number, "no tree has a name of this one")


def check(volume, trees):
    for files in trees:
        check_entries(files)
        check_names(files)
        check_pairs(files)
        check_refs(files)
        check_targets(files)
        check_reached(files)
    check_tree_refs(volume, trees)


