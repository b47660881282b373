"""Changes of names and inodes: part 2. `changed_extents` has those of the parts of files."""

import struct

from . import forms
from .changes import ROOT, TREE, Picks, change, entry_body, inode_key, rename, take_name
from .disk import extref_hash, name_hash
from .forms import Key

SOCKET, ABSENT = 6, 99999


def put_inode(at, layout, value, pick):
    """A change of one field of an inode."""

    def done(edit):
        edit.put(TREE, inode_key(pick(Picks(edit))), at, layout, value)

    return done


for NAME, CLAUSE, DONE in (
    ("a_mode_without_a_kind", "2.mode", put_inode(52, "<I", 0o644, Picks.file)),
    ("an_unknown_bit_of_a_mode", "2.mode", put_inode(52, "<I", 0o1100644, Picks.file)),
    ("a_link_too_many", "2.links", put_inode(40, "<I", 2, Picks.file)),
    ("a_directory_with_two_links", "2.links", put_inode(40, "<I", 2, Picks.folder)),
    ("another_size_of_a_directory", "2.size", put_inode(16, "<Q", 1000, Picks.folder)),
    ("another_number_of_bytes", "2.nbytes", put_inode(24, "<Q", 12288000, Picks.file)),
    ("an_unknown_flag_of_an_inode", "2.flags", put_inode(64, "<Q", 1 << 20, Picks.file)),
    ("a_directory_without_checksums", "2.flags", put_inode(64, "<Q", 1, Picks.folder)),
    ("an_immutable_symlink", "2.flags", put_inode(64, "<Q", 0x40, Picks.symlink)),
    ("an_inode_of_the_future", "2.generation", put_inode(0, "<Q", 50, Picks.file)),
    ("a_transid_of_the_future", "2.generation", put_inode(8, "<Q", 50, Picks.file)),
    ("the_root_directory_is_a_file", "2.root", put_inode(52, "<I", 0o100755, lambda picks: ROOT)),
    ("the_root_directory_has_two_links", "2.root", put_inode(40, "<I", 2, lambda picks: ROOT)),
    ("another_number_of_bytes_of_a_directory", None, put_inode(24, "<Q", 16384, Picks.folder)),
    ("an_inode_one_transaction_ahead", None, put_inode(8, "<Q", 2, Picks.file)),
):
    DONE.__name__ = NAME
    change(CLAUSE)(DONE)


@change("2.form")
def a_short_inode(edit):
    key = inode_key(Picks(edit).file())
    edit.replace(TREE, key, edit.body(TREE, key)[:159])


@change("2.form")
def a_name_longer_than_its_item(edit):
    edit.put(TREE, edit.keys(TREE, forms.DIR_INDEX)[0], 27, "<H", 200)


@change("2.form")
def two_entries_in_an_index(edit):
    body = edit.body(TREE, edit.keys(TREE, forms.DIR_INDEX)[0])
    body += bytes(body)


@change("2.kind")
def an_item_of_an_unknown_kind(edit):
    edit.insert(TREE, Key(Picks(edit).file(), 200, 0), b"")


@change("2.hash")
def a_name_under_another_hash(edit):
    key = edit.keys(TREE, forms.DIR_ITEM)[0]
    edit.move(TREE, key, (key.objectid, key.kind, key.offset + 1))


def as_extref(edit, more):
    """Makes an extref of an inode ref, under its hash and some more."""
    picks = Picks(edit)
    number = picks.file()
    (name,) = picks.files.names_of[number]
    edit.remove(TREE, Key(number, forms.INODE_REF, ROOT))
    hashed = extref_hash(ROOT, name.name) + more
    edit.insert(TREE, Key(number, forms.EXTREF, hashed), struct.pack("<QQH", ROOT, name.index, len(name.name)) + name.name)


@change("2.hash")
def an_extref_under_another_hash(edit):
    as_extref(edit, 1)


@change("2.index")
def an_index_of_1(edit):
    picks = Picks(edit)
    rename(edit, picks, picks.file(), index=1)


def with_attribute(edit, hashed=0, kind=8, name=b"user.a"):
    body = entry_body(forms.ZERO_KEY, kind, name)
    edit.insert(TREE, Key(Picks(edit).file(), forms.XATTR, name_hash(name) + hashed), body)


@change(None)
def an_attribute(edit):
    with_attribute(edit)


@change("2.xattr")
def an_attribute_of_another_type(edit):
    with_attribute(edit, kind=1)


@change("2.xattr")
def an_attribute_under_another_hash(edit):
    with_attribute(edit, hashed=1)


@change("2.xattr")
def an_attribute_without_a_name(edit):
    with_attribute(edit, name=b"")


def put_entry(at, layout, value):
    """A change of a field of an entry, in the dir index and the dir item alike."""

    def done(edit):
        picks = Picks(edit)
        (name,) = picks.files.names_of[picks.file()]
        edit.put(TREE, Key(ROOT, forms.DIR_INDEX, name.index), at, layout, value)
        edit.put(TREE, Key(ROOT, forms.DIR_ITEM, name_hash(name.name)), at, layout, value)

    return done


for NAME, CLAUSE, DONE in (
    ("an_entry_of_an_inode_with_an_offset", "2.entry", put_entry(9, "<Q", 1)),
    ("an_entry_of_a_low_inode", "2.entry", put_entry(0, "<Q", 7)),
    ("an_entry_of_type_9", "2.entry", put_entry(29, "<B", 9)),
    ("an_entry_of_another_type", "2.type", put_entry(29, "<B", SOCKET)),
    ("an_entry_of_an_inode_that_is_not_there", "2.target", put_entry(0, "<Q", ABSENT)),
):
    DONE.__name__ = NAME
    change(CLAUSE)(DONE)


def renamed_to(name):
    def done(edit):
        picks = Picks(edit)
        rename(edit, picks, picks.file(), name=name)

    return done


for NAME, BYTES in {"a_name_with_a_slash": b"a/b", "a_name_of_a_dot": b".", "a_name_with_a_zero": b"a\0b", "a_name_of_256_bytes": b"x" * 256}.items():
    DONE = renamed_to(BYTES)
    DONE.__name__ = NAME
    change("2.name")(DONE)


@change("2.name-twice")
def one_name_twice_in_a_directory(edit):
    """The two entries of one name stand in one dir item."""
    picks = Picks(edit)
    first, second = picks.file(), picks.small()
    (name,) = picks.files.names_of[first]
    old, entry = take_name(edit, picks, second)
    body = entry_body(inode_key(second), entry.kind, name.name)
    edit.insert(TREE, Key(ROOT, forms.DIR_INDEX, old.index), body)
    both = edit.body(TREE, Key(ROOT, forms.DIR_ITEM, name_hash(name.name)))
    both += body
    edit.insert(TREE, Key(second, forms.INODE_REF, ROOT), struct.pack("<QH", old.index, len(name.name)) + name.name)
    edit.add(TREE, inode_key(ROOT), 16, "<Q", 2 * len(name.name))


@change("2.pair")
def a_name_without_its_dir_item(edit):
    edit.remove(TREE, edit.keys(TREE, forms.DIR_ITEM)[0])


@change("2.pair")
def a_name_without_its_dir_index(edit):
    """The directory's size is that of the names that are left."""
    picks = Picks(edit)
    (name,) = picks.files.names_of[picks.file()]
    edit.remove(TREE, Key(ROOT, forms.DIR_INDEX, name.index))
    edit.add(TREE, inode_key(ROOT), 16, "<Q", -2 * len(name.name))


@change("2.ref")
def a_name_without_its_inode_ref(edit):
    edit.remove(TREE, Key(Picks(edit).file(), forms.INODE_REF, ROOT))


@change("2.ref")
def an_inode_ref_of_another_index(edit):
    edit.add(TREE, Key(Picks(edit).file(), forms.INODE_REF, ROOT), 0, "<Q", 1000)


@change("2.target")
def a_name_below_a_file(edit):
    picks = Picks(edit)
    rename(edit, picks, picks.small(), directory=picks.file())


@change("2.links")
def a_directory_with_two_names(edit):
    picks = Picks(edit)
    number = picks.folder()
    edit.put(TREE, inode_key(number), 40, "<I", 2)
    body = entry_body(inode_key(number), 2, b"again")
    edit.insert(TREE, Key(ROOT, forms.DIR_INDEX, 5000), body)
    edit.insert(TREE, Key(ROOT, forms.DIR_ITEM, name_hash(b"again")), body)
    ref = edit.body(TREE, Key(number, forms.INODE_REF, ROOT))
    ref += struct.pack("<QH", 5000, 5) + b"again"
    edit.add(TREE, inode_key(ROOT), 16, "<Q", 10)


@change("2.reached")
def a_directory_in_itself(edit):
    picks = Picks(edit)
    number = picks.folder()
    rename(edit, picks, number, directory=number, index=5000)


@change("2.there")
def an_inode_without_its_item(edit):
    edit.remove(TREE, inode_key(Picks(edit).file()))


@change("2.orphan")
def a_file_without_names(edit):
    picks = Picks(edit)
    number = picks.file()
    take_name(edit, picks, number)
    edit.put(TREE, inode_key(number), 40, "<I", 0)


@change("2.orphan")
def a_directory_without_names(edit):
    picks = Picks(edit)
    number = picks.folder()
    take_name(edit, picks, number)
    edit.put(TREE, inode_key(number), 40, "<I", 0)


@change(None)
def a_file_that_is_to_be_removed(edit):
    """Linux leaves it so where a file was removed while it was open."""
    a_file_without_names(edit)
    edit.insert(TREE, Key(forms.ORPHANS, forms.ORPHAN, Picks(edit).file()), b"")


@change(None)
def an_extref_in_place_of_an_inode_ref(edit):
    as_extref(edit, 0)


@change("2.tree-ref")
def a_root_ref_of_another_index(edit):
    edit.add(forms.ROOT_TREE, edit.keys(forms.ROOT_TREE, forms.ROOT_REF)[0], 8, "<Q", 1)


@change("2.tree-ref")
def a_tree_without_its_root_ref(edit):
    edit.remove(forms.ROOT_TREE, edit.keys(forms.ROOT_TREE, forms.ROOT_REF)[0])


@change("2.tree-ref")
def an_entry_of_another_tree(edit):
    for kind in (forms.DIR_INDEX, forms.DIR_ITEM):
        for key in edit.keys(TREE, kind):
            if edit.body(TREE, key)[8] == forms.ROOT:
                edit.put(TREE, key, 0, "<Q", 300)


@change("2.tree-named")
def a_tree_without_a_name(edit):
    edit.remove(forms.ROOT_TREE, edit.keys(forms.ROOT_TREE, forms.ROOT_REF)[0])
    edit.remove(forms.ROOT_TREE, edit.keys(forms.ROOT_TREE, forms.ROOT_BACKREF)[0])
    for kind in (forms.DIR_INDEX, forms.DIR_ITEM):
        for key in edit.keys(TREE, kind):
            if edit.body(TREE, key)[8] == forms.ROOT:
                edit.remove(TREE, key)
    edit.add(TREE, inode_key(ROOT), 16, "<Q", -2 * len(b"reiserfs_saved"))


