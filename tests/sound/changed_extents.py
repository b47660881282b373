"""Changes of the parts of files: part 2, on file extents, and part 5."""

import stat
import struct

from . import forms
from .changes import TREE, Picks, change, extent_key, free_address, inode_key
from .forms import Key

RAM, COMPRESSION, ENCRYPTION, ENCODING, DISK, DISK_LENGTH, OFFSET, LENGTH = 8, 16, 17, 18, 21, 29, 37, 45
BLOCK, MUCH_LATER = 4096, 99


def put_extent(pick, *fields):
    """A change of fields of the first extent of an inode."""

    def done(edit):
        picks = Picks(edit)
        for at, layout, value in fields:
            edit.put(TREE, extent_key(picks, pick(picks)), at, layout, value)

    return done


for NAME, CLAUSE, DONE in (
    ("an_extent_of_the_future", "2.extent-generation", put_extent(Picks.file, (0, "<Q", 99))),
    ("17_bytes_in_memory", "2.extent-range", put_extent(Picks.file, (RAM, "<Q", 17))),
    ("an_extent_without_bytes", "2.extent-range", put_extent(Picks.file, (LENGTH, "<Q", 0))),
    ("a_hole_with_a_length_on_the_disk", "2.extent-range", put_extent(Picks.file, (DISK, "<Q", 0))),
    ("a_compressed_extent_that_is_none", "2.encoding", put_extent(Picks.file, (COMPRESSION, "<B", 1))),
    ("an_unknown_compression", "2.encoding", put_extent(Picks.file, (COMPRESSION, "<B", 9))),
    ("an_encrypted_extent", "2.encoding", put_extent(Picks.file, (ENCRYPTION, "<B", 1))),
    ("an_extent_of_another_encoding", "2.encoding", put_extent(Picks.small, (ENCODING, "<H", 1))),
    ("an_inline_extent_of_another_length", "2.inline", put_extent(Picks.small, (RAM, "<Q", 3))),
    ("an_extent_of_an_unknown_kind", "2.form", put_extent(Picks.file, (20, "<B", 3))),
):
    DONE.__name__ = NAME
    change(CLAUSE)(DONE)


@change("2.extent-range")
def a_part_that_reads_a_neighbour(edit):
    """The length is twice that on the disk."""
    picks = Picks(edit)
    number = picks.file()
    key, length = extent_key(picks, number), picks.extent(number)[1].length
    edit.put(TREE, key, LENGTH, "<Q", 2 * length)
    edit.put(TREE, key, RAM, "<Q", 2 * length)
    edit.add(TREE, inode_key(number), 24, "<Q", length)


@change("2.extent-owner")
def a_directory_with_a_file_extent(edit):
    edit.insert(TREE, Key(Picks(edit).folder(), forms.FILE_EXTENT, 0), struct.pack("<QQBBHB", 1, 3, 0, 0, 0, 0) + b"abc")


def split(edit):
    """Two file extents in the place of one, the first of two blocks: the disk extent then has one reference, counted
    twice. Gives their keys."""
    picks = Picks(edit)
    number = picks.inode(stat.S_IFREG, lambda it: picks.with_extents(it, forms.REGULAR) and picks.extent(it)[1].length >= 4 * BLOCK)
    key, (_, extent) = extent_key(picks, number), picks.extent(number)
    second = key._replace(offset=key.offset + 2 * BLOCK)
    edit.insert(TREE, second, edit.body(TREE, key))
    edit.put(TREE, key, LENGTH, "<Q", 2 * BLOCK)
    edit.put(TREE, second, OFFSET, "<QQ", extent.offset + 2 * BLOCK, extent.length - 2 * BLOCK)
    item = Key(extent.disk, forms.EXTENT, extent.disk_length)
    at = edit.body(forms.EXTENT_TREE, item).index(struct.pack("<QQQI", TREE, number, key.offset - extent.offset, 1), 24)
    edit.put(forms.EXTENT_TREE, item, at + 24, "<I", 2)
    edit.add(forms.EXTENT_TREE, item, 0, "<Q", 1)
    return key, second


@change(None)
def a_file_extent_in_two(edit):
    split(edit)


@change("2.extent-order")
def two_extents_that_overlap(edit):
    first, _ = split(edit)
    edit.put(TREE, first, LENGTH, "<Q", 3 * BLOCK)
    edit.add(TREE, inode_key(first.objectid), 24, "<Q", BLOCK)


@change("2.extent-order")
def an_extent_off_4096(edit):
    _, second = split(edit)
    edit.move(TREE, second, second._replace(offset=second.offset + 1))


@change("2.inline")
def an_inline_extent_behind_the_begin(edit):
    number = Picks(edit).small()
    edit.move(TREE, Key(number, forms.FILE_EXTENT, 0), (number, forms.FILE_EXTENT, BLOCK))


@change("2.holes")
def holes_without_their_feature(edit):
    Picks(edit).sparse()
    edit.super(188, "<Q", edit.super_number(188) & ~0x200)


def find_sums(edit, address):
    """The item with the checksum of an address."""
    return max(key for key in edit.keys(forms.SUM_TREE, forms.SUMS) if key.offset <= address)


def of_its_own(edit):
    """The disk range of a file's first extent, and the item that has just its checksums."""
    picks = Picks(edit)
    for number, extents in picks.files.extents.items():
        for _, extent in extents:
            if extent.kind == forms.REGULAR and extent.disk and stat.S_ISREG(picks.files.inodes[number].mode):
                key = find_sums(edit, extent.disk)
                if key.offset == extent.disk and len(edit.body(forms.SUM_TREE, key)) == 4 * extent.disk_length // BLOCK:
                    return number, extent, key
    raise LookupError("the volume has no extent with checksums of its own")


@change("5.form")
def checksums_off_4096(edit):
    key = edit.keys(forms.SUM_TREE, forms.SUMS)[-1]
    edit.move(forms.SUM_TREE, key, key._replace(offset=key.offset + 1))


@change("5.form")
def a_checksum_and_a_half(edit):
    body = edit.body(forms.SUM_TREE, edit.keys(forms.SUM_TREE, forms.SUMS)[-1])
    body += b"\0\0"


@change("5.form")
def checksums_of_another_object(edit):
    key = edit.keys(forms.SUM_TREE, forms.SUMS)[-1]
    edit.move(forms.SUM_TREE, key, key._replace(objectid=key.objectid + 1))


@change("5.form")
def an_item_without_checksums(edit):
    key = edit.keys(forms.SUM_TREE, forms.SUMS)[-1]
    edit.insert(forms.SUM_TREE, key._replace(offset=free_address(edit, forms.DATA)), b"")


@change("5.once")
def a_checksum_twice(edit):
    key = next(it for it in edit.keys(forms.SUM_TREE, forms.SUMS) if len(edit.body(forms.SUM_TREE, it)) >= 8)
    last = edit.body(forms.SUM_TREE, key)[-4:]
    edit.insert(forms.SUM_TREE, key._replace(offset=key.offset + (len(edit.body(forms.SUM_TREE, key)) // 4 - 1) * BLOCK), last)


@change("5.missing")
def data_without_its_checksums(edit):
    edit.remove(forms.SUM_TREE, of_its_own(edit)[2])


@change("5.odd")
def data_with_checksums_and_nodatasum(edit):
    """The saved image has checksums too, so that its flag is set."""
    for tree in (TREE, 256):
        for key in edit.keys(tree, forms.INODE):
            if edit.number(tree, key, 52, "<I") & 0o170000 == stat.S_IFREG:
                edit.put(tree, key, 64, "<Q", edit.number(tree, key, 64) | 1)


@change("5.outside")
def a_checksum_of_free_space(edit):
    key = edit.keys(forms.SUM_TREE, forms.SUMS)[0]
    edit.insert(forms.SUM_TREE, key._replace(offset=free_address(edit, forms.DATA)), b"abcd")


@change("5.sum")
def a_changed_byte_of_data(edit):
    _, extent, _ = of_its_own(edit)
    _, place = edit.volume.place(extent.disk)
    edit.disk(place, bytes([edit.volume.disk.read(place, 1)[0] ^ 1]))


@change("5.sum")
def a_changed_checksum(edit):
    edit.put(forms.SUM_TREE, of_its_own(edit)[2], 0, "<I", 7)


def new_extent(edit, length=BLOCK, count=1):
    """A new extent of data of an empty file: its address and the file's number. The file extent is to be added."""
    picks = Picks(edit)
    number = picks.inode(stat.S_IFREG, lambda it: not picks.files.extents[it])
    address = free_address(edit, forms.DATA, length)
    ref = struct.pack("<BQQQI", forms.DATA_REF, TREE, number, 0, count)
    edit.insert(forms.EXTENT_TREE, Key(address, forms.EXTENT, length), struct.pack("<QQQ", count, 1, 1) + ref)
    edit.put(TREE, inode_key(number), 24, "<Q", length)
    group = max(key for key in edit.keys(forms.EXTENT_TREE, forms.BLOCK_GROUP) if key.objectid <= address)
    edit.add(forms.EXTENT_TREE, group, 0, "<Q", length)
    edit.super(120, "<Q", edit.super_number(120) + length)
    return address, number


def preallocate(edit):
    address, number = new_extent(edit)
    body = struct.pack("<QQBBHBQQQQ", 1, BLOCK, 0, 0, 0, forms.PREALLOCATED, address, BLOCK, 0, BLOCK)
    edit.insert(TREE, Key(number, forms.FILE_EXTENT, 0), body)
    return address, number


@change(None)
def a_preallocated_extent(edit):
    preallocate(edit)


@change("5.odd")
def a_preallocated_extent_with_a_checksum(edit):
    address, _ = preallocate(edit)
    key = edit.keys(forms.SUM_TREE, forms.SUMS)[0]
    edit.insert(forms.SUM_TREE, key._replace(offset=address), b"abcd")


@change("2.encoding")
def a_preallocated_extent_that_is_compressed(edit):
    _, number = preallocate(edit)
    edit.put(TREE, Key(number, forms.FILE_EXTENT, 0), COMPRESSION, "<B", 1)
    edit.put(TREE, Key(number, forms.FILE_EXTENT, 0), RAM, "<Q", 8192)


