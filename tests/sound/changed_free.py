"""Changes of the free space tree of a volume that has one: part 10; and of metadata that is there twice (DUP)."""

import struct

from . import forms
from .changes import change
from .forms import Key

FREE = forms.FREE_TREE
BLOCK = 4096


def own_groups(edit):
    """The items of block groups that are there, in the free space tree."""
    there = {(key.objectid, key.offset) for key in edit.keys(forms.EXTENT_TREE, forms.BLOCK_GROUP)}
    return [key for key in edit.keys(FREE, forms.FREE_INFO) if (key.objectid, key.offset) in there]


def runs(edit, group):
    return [key for key in edit.keys(FREE, forms.FREE_EXTENT) if group.objectid <= key.objectid < group.objectid + group.offset]


def with_runs(edit):
    return next(key for key in own_groups(edit) if runs(edit, key))


@change("10.tree")
def no_free_space_tree(edit):
    edit.remove(forms.ROOT_TREE, Key(FREE, forms.ROOT, 0))


@change("10.groups")
def a_block_group_that_is_not_told(edit):
    group = with_runs(edit)
    for key in [group, *runs(edit, group)]:
        edit.remove(FREE, key)


@change("10.count")
def another_number_of_runs(edit):
    edit.add(FREE, with_runs(edit), 0, "<I", 1)


@change("10.free")
def a_run_that_is_shorter(edit):
    key = runs(edit, with_runs(edit))[-1]
    edit.move(FREE, key, key._replace(offset=key.offset - BLOCK))


@change("10.free")
def a_run_that_is_used(edit):
    """It begins a block earlier, in an extent."""
    group = with_runs(edit)
    key = next(key for key in runs(edit, group) if key.objectid > group.objectid)
    edit.move(FREE, key, key._replace(objectid=key.objectid - BLOCK, offset=key.offset + BLOCK))


@change("10.free")
def a_run_that_is_not_told(edit):
    group = with_runs(edit)
    edit.remove(FREE, runs(edit, group)[-1])
    edit.add(FREE, group, 0, "<I", -1)


@change("10.form")
def flags_of_bitmaps_where_runs_are(edit):
    edit.put(FREE, with_runs(edit), 4, "<I", 1)


@change("10.form")
def unknown_flags(edit):
    edit.put(FREE, with_runs(edit), 4, "<I", 2)


@change("10.form")
def a_run_outside_of_its_block_group(edit):
    group = with_runs(edit)
    key = runs(edit, group)[-1]
    edit.move(FREE, key, key._replace(offset=key.offset + BLOCK))


@change("10.groups")
def a_range_that_is_no_block_group(edit):
    """It lies in one."""
    key = runs(edit, with_runs(edit))[-1]
    edit.insert(FREE, Key(key.objectid + BLOCK, forms.FREE_INFO, BLOCK), bytes(8))


@change("10.form")
def a_run_in_two_items(edit):
    group = with_runs(edit)
    key = next(key for key in runs(edit, group) if key.offset > BLOCK)
    edit.move(FREE, key, key._replace(offset=BLOCK))
    edit.insert(FREE, Key(key.objectid + BLOCK, forms.FREE_EXTENT, key.offset - BLOCK), b"")
    edit.add(FREE, group, 0, "<I", 1)


@change("10.form")
def a_run_behind_the_last_block_group(edit):
    """It has no item of a range, so Linux takes it to be of the block group before."""
    edit.insert(FREE, Key(behind_all(edit), forms.FREE_EXTENT, BLOCK), b"")


def behind_all(edit):
    """An address at which there is no block group, behind all of them."""
    return max(key.objectid + key.offset for key in edit.keys(forms.EXTENT_TREE, forms.BLOCK_GROUP)) + (1 << 30)


@change("10.range")
def a_range_behind_the_last_block_group(edit):
    edit.insert(FREE, Key(behind_all(edit), forms.FREE_INFO, BLOCK), bytes(8))


@change("10.range")
def a_run_before_all_ranges(edit):
    edit.insert(FREE, Key(0, forms.FREE_EXTENT, BLOCK), b"")


@change(None)
def what_meets_no_block_group(edit):
    """It is in a range before the first block group, so Linux does not read it."""
    edit.insert(FREE, Key(0, forms.FREE_INFO, 8 * BLOCK), bytes(9))
    edit.insert(FREE, Key(BLOCK, forms.FREE_EXTENT, 16 * BLOCK), bytes(1))


def as_bitmap(edit):
    """A block group, the largest, that is told by bitmaps of 2048 blocks each, as Linux writes them."""
    group = max((key for key in own_groups(edit) if runs(edit, key)), key=lambda key: key.offset)
    bits = 0
    for key in runs(edit, group):
        first = (key.objectid - group.objectid) // BLOCK
        bits |= ((1 << key.offset // BLOCK) - 1) << first
        edit.remove(FREE, key)
    edit.put(FREE, group, 4, "<I", 1)
    made = []
    for first in range(0, group.offset // BLOCK, 2048):
        count = min(2048, group.offset // BLOCK - first)
        part = bits >> first & (1 << count) - 1
        made.append(Key(group.objectid + first * BLOCK, forms.FREE_BITMAP, count * BLOCK))
        edit.insert(FREE, made[-1], part.to_bytes(-(-count // 8), "little"))
    return made


@change(None)
def free_space_by_bitmaps(edit):
    as_bitmap(edit)


@change("10.form")
def a_gap_between_bitmaps(edit):
    """Linux takes the blocks in it to be as the one before."""
    edit.remove(FREE, as_bitmap(edit)[1])


@change("10.form")
def a_bitmap_of_half_a_block(edit):
    key = as_bitmap(edit)[-1]
    edit.move(FREE, key, key._replace(offset=key.offset - BLOCK // 2))


@change("10.free")
def a_changed_bit_of_a_bitmap(edit):
    body = edit.body(FREE, as_bitmap(edit)[-1])
    body[-1] ^= 0x80


@change("10.valid")
def a_tree_that_is_not_valid(edit):
    with_runs(edit)
    edit.super(180, "<Q", 1)


@change(None)
def a_tree_that_is_not_used(edit):
    """Linux does not read it without its bit."""
    edit.add(FREE, with_runs(edit), 0, "<I", 1)
    edit.super(180, "<Q", 0)


@change("7.extent")
def a_second_copy_without_its_device_extent(edit):
    chunk = next(key for key in edit.keys(forms.CHUNK_TREE, forms.CHUNK) if edit.number(forms.CHUNK_TREE, key, 24) & forms.DUP)
    place = edit.number(forms.CHUNK_TREE, chunk, 48 + 32 + 8)
    edit.remove(forms.DEVICE_TREE, Key(1, forms.DEVICE_EXTENT, place))


@change("7.chunk")
def two_copies_with_one_stripe(edit):
    key = next(key for key in edit.keys(forms.CHUNK_TREE, forms.CHUNK) if edit.number(forms.CHUNK_TREE, key, 24) == forms.META | forms.DUP)
    body = edit.body(forms.CHUNK_TREE, key)
    body[44:46] = struct.pack("<H", 1)
    del body[80:]
