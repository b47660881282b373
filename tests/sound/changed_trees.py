"""Changes of the superblock, of nodes and of root items: part 1."""

import struct

from . import forms
from .changes import TREE, change, same_but
from .forms import Key

MUCH = 1 << 40
SUMS_ROOT = Key(forms.SUM_TREE, forms.ROOT, 0)
FILES_ROOT = Key(TREE, forms.ROOT, 0)
RELOCATION_ROOT = Key(forms.DATA_RELOCATION_TREE, forms.ROOT, 0)


@change("1.super-sum")
def superblock_without_its_checksum(edit):
    edit.super(299, "<B", 65)
    edit.unsealed.add(forms.SUPER_AT)


for NAME, FIELDS in {
    "leaves_of_another_size": [(152, "<I", 8192)],
    "stripes_of_3_bytes": [(156, "<I", 3)],
    "an_unknown_flag_of_the_superblock": [(56, "<Q", 1 | 1 << 20)],
    "a_root_off_4096": [(80, "<Q", 4194305)],
    "an_array_of_50_bytes": [(160, "<I", 50)],
    "a_chunk_tree_of_the_future": [(164, "<Q", 99)],
    "a_level_of_9": [(200, "<B", 9)],
    "more_bytes_than_the_device": [(112, "<Q", MUCH)],
    "another_place_of_the_superblock": [(48, "<Q", 4096)],
}.items():
    FUNCTION = same_but(*FIELDS)
    FUNCTION.__name__ = NAME
    change("1.super-field")(FUNCTION)


@change("1.array")
def the_array_has_another_chunk(edit):
    """Its number of sub-stripes, which nobody reads."""
    edit.super(811 + 17 + 46, "<H", 7)


@change("1.mapped")
def a_root_in_no_chunk(edit):
    edit.put(forms.ROOT_TREE, SUMS_ROOT, 176, "<Q", MUCH)


@change("1.node-sum")
def a_node_without_its_checksum(edit):
    address = edit.root(forms.SUM_TREE)
    edit.node_put(address, 200, "<B", 255)
    edit.unsealed.add(address)


@change("1.node-head")
def a_node_of_another_address(edit):
    edit.node_put(edit.root(forms.SUM_TREE), 48, "<Q", edit.root(TREE))


@change("1.node-head")
def a_node_of_another_volume(edit):
    edit.node_put(edit.root(forms.SUM_TREE), 32, "<Q", 1)


@change("1.written")
def a_node_that_is_not_written(edit):
    edit.node_put(edit.first_leaf(TREE), 56, "<B", 0)


@change("1.written")
def a_node_of_revision_0(edit):
    edit.node_put(edit.first_leaf(TREE), 63, "<B", 0)


@change("1.node-generation")
def a_node_of_the_future(edit):
    """The node, and the pointer to it."""
    edit.node_put(edit.root(forms.SUM_TREE), 80, "<Q", 50)
    edit.put(forms.ROOT_TREE, SUMS_ROOT, 160, "<Q", 50)
    edit.put(forms.ROOT_TREE, SUMS_ROOT, 239, "<Q", 50)


@change("1.empty")
def an_empty_tree_that_must_not_be(edit):
    edit.items(edit.root(forms.DATA_RELOCATION_TREE)).clear()


@change("1.empty")
def an_empty_leaf_below_a_node(edit):
    edit.items(edit.volume.trees[TREE].nodes[-1]).clear()


@change("1.count")
def more_items_than_a_leaf_has_room_for(edit):
    edit.node_put(edit.root(forms.SUM_TREE), 96, "<I", 10000)


@change("1.packed")
def a_gap_behind_the_last_item(edit):
    """The data of a leaf moves down by 8 bytes."""
    address = edit.root(forms.DEVICE_TREE)
    size = edit.volume.super.nodesize
    items, end = edit.volume.node(address).entries, size - 101 - 8
    for i, (_, body) in enumerate(items):
        end -= len(body)
        edit.node_put(address, 101 + 25 * i + 17, "<I", end)
        edit.raw.append((address, 101 + end, body))


@change("1.key-order")
def two_items_in_the_wrong_order(edit):
    items = edit.items(edit.first_leaf(TREE))
    items[4][0], items[5][0] = items[5][0], items[4][0]


@change("1.child-key")
def a_key_below_the_first_of_the_child(edit):
    node = edit.volume.node(edit.root(TREE))
    key = node.entries[-1][0]
    edit.node_put(node.address, 101 + 33 * (len(node.entries) - 1), "<QBQ", key.objectid, key.kind, key.offset - 1 if key.offset else 0)
    if not key.offset:
        edit.node_put(node.address, 101 + 33 * (len(node.entries) - 1), "<QBQ", key.objectid - 1, 255, forms.MAX64)


@change("1.child-key")
def the_first_key_of_a_root_moved(edit):
    edit.node_put(edit.root(TREE), 101, "<QBQ", 256, 12, 256)


@change("1.pointer")
def a_pointer_of_another_generation(edit):
    node = edit.volume.node(edit.root(TREE))
    edit.node_put(node.address, 101 + 33 + 25, "<Q", 0)


@change("1.pointer")
def a_root_item_of_another_level(edit):
    edit.put(forms.ROOT_TREE, SUMS_ROOT, 238, "<B", 1)


@change("1.level")
def a_root_item_of_a_level_too_high(edit):
    edit.put(forms.ROOT_TREE, SUMS_ROOT, 238, "<B", 9)


@change("1.owner")
def a_leaf_of_another_tree(edit):
    edit.node_put(edit.first_leaf(TREE), 88, "<Q", 7)


@change("1.trees")
def no_checksum_tree(edit):
    edit.remove(forms.ROOT_TREE, SUMS_ROOT)


@change("1.trees")
def no_tree_5(edit):
    edit.remove(forms.ROOT_TREE, FILES_ROOT)


@change("1.trees")
def no_relocation_tree(edit):
    edit.remove(forms.ROOT_TREE, RELOCATION_ROOT)


@change("1.root-once")
def two_root_items_of_a_tree(edit):
    edit.insert(forms.ROOT_TREE, Key(TREE, forms.ROOT, 1), edit.body(forms.ROOT_TREE, FILES_ROOT))


for NAME, (AT, LAYOUT, VALUE) in {
    "a_tree_that_is_removed": (216, "<I", 0),
    "a_tree_with_two_refs": (216, "<I", 2),
    "an_unknown_flag_of_a_tree": (208, "<Q", 1 << 20),
    "a_dead_subvolume": (208, "<Q", 1 << 48),
    "another_root_directory": (168, "<Q", 300),
    "a_second_generation_of_the_future": (239, "<Q", 99),
    "a_snapshot_of_the_future": (200, "<Q", 99),
    "a_removal_has_begun": (237, "<B", 1),
}.items():

    def changed(edit, at=AT, layout=LAYOUT, value=VALUE):
        edit.put(forms.ROOT_TREE, FILES_ROOT, at, layout, value)

    changed.__name__ = NAME
    change("1.root-item")(changed)


@change("1.root-item")
def a_short_root_item(edit):
    edit.replace(forms.ROOT_TREE, SUMS_ROOT, edit.body(forms.ROOT_TREE, SUMS_ROOT)[:400])


@change("1.kind")
def a_block_group_in_the_device_tree(edit):
    edit.insert(forms.DEVICE_TREE, Key(MUCH, forms.BLOCK_GROUP, 4096), struct.pack("<QQQ", 0, 256, 1))


@change("1.default")
def a_default_that_is_not_there(edit):
    key = edit.keys(forms.ROOT_TREE, forms.DIR_ITEM)[0]
    edit.put(forms.ROOT_TREE, key, 0, "<Q", 300)


@change("1.root-item")
def another_place_of_a_root_item(edit):
    edit.move(forms.ROOT_TREE, SUMS_ROOT, SUMS_ROOT._replace(offset=1))


ROOT_INODE = Key(forms.ROOT_DIRECTORY, forms.INODE, 0)


def put_root_tree(kind, at, layout, value):
    """A change of an item of the root tree's directory."""

    def done(edit):
        edit.put(forms.ROOT_TREE, edit.keys(forms.ROOT_TREE, kind)[0], at, layout, value)

    return done


for NAME, DONE in {
    "an_unknown_flag_of_the_root_trees_directory": put_root_tree(forms.INODE, 64, "<Q", 1 << 20),
    "a_root_trees_directory_of_the_future": put_root_tree(forms.INODE, 0, "<Q", 99),
    "a_root_trees_directory_with_two_links": put_root_tree(forms.INODE, 40, "<I", 2),
    "a_default_of_another_kind": put_root_tree(forms.DIR_ITEM, 8, "<B", 133),
    "a_default_of_an_unknown_type": put_root_tree(forms.DIR_ITEM, 29, "<B", 200),
    "another_name_than_default": put_root_tree(forms.DIR_ITEM, 30, "<B", 68),
    "a_ref_in_the_root_tree_that_is_cut": put_root_tree(forms.INODE_REF, 8, "<H", 9),
}.items():
    DONE.__name__ = NAME
    change("1.root-tree")(DONE)


@change("1.root-tree")
def no_directory_in_the_root_tree(edit):
    edit.remove(forms.ROOT_TREE, ROOT_INODE)


# ---- what does not matter to Linux -----------------------------------------------------------------------------------


@change(None)
def another_chunk_tree_uuid_in_a_node(edit):
    edit.node_put(edit.first_leaf(TREE), 64, "<Q", 0)


@change(None)
def another_number_of_bytes_of_a_tree(edit):
    edit.put(forms.ROOT_TREE, FILES_ROOT, 192, "<Q", 1)


@change(None)
def another_root_directory_of_the_root_tree(edit):
    edit.super(128, "<Q", 7)


@change(None)
def a_generation_of_a_cache(edit):
    edit.super(555, "<Q", 5)


@change(None)
def another_transid_of_an_entry(edit):
    edit.put(TREE, edit.keys(TREE, forms.DIR_INDEX)[0], 17, "<Q", 99)
