"""Changes of the trees that tell how space is used: parts 3, 4 and 6 to 9."""

import struct

from . import forms
from .changes import TREE, change, free_address
from .changed_extents import MUCH_LATER, new_extent
from .disk import data_ref_hash
from .forms import Key

BLOCK = 4096
SPACE = forms.EXTENT_TREE


def data_extents(edit, inline):
    """The extents of data with so many references in their items."""
    return [key for key in edit.keys(SPACE, forms.EXTENT) if len(edit.body(SPACE, key)) == 24 + 29 * inline]


def node_extents(edit):
    return edit.keys(SPACE, forms.METADATA)


def put_extent_item(pick, at, layout, value):
    def done(edit):
        edit.put(SPACE, pick(edit), at, layout, value)

    return done


def one_use(edit):
    return data_extents(edit, 1)[0]


def two_uses(edit):
    return data_extents(edit, 2)[0]


def first_node(edit):
    return node_extents(edit)[0]


def tree_leaf(edit):
    """The item of a leaf of tree 5."""
    return Key(edit.first_leaf(TREE), forms.METADATA, 0)


for NAME, CLAUSE, DONE in (
    ("an_extent_item_of_the_future", "3.generation", put_extent_item(one_use, 8, "<Q", MUCH_LATER)),
    ("a_node_item_of_the_future", "3.generation", put_extent_item(first_node, 8, "<Q", MUCH_LATER)),
    ("an_extent_of_data_and_a_node", "3.flags", put_extent_item(one_use, 16, "<Q", 3)),
    ("data_that_is_full", "3.flags", put_extent_item(one_use, 16, "<Q", 257)),
    ("a_full_node_in_its_tree", "3.full", put_extent_item(tree_leaf, 16, "<Q", 258)),
    ("a_reference_of_an_unknown_kind", "3.form", put_extent_item(one_use, 24, "<B", 170)),
    ("a_reference_of_another_tree", "3.refs", put_extent_item(first_node, 25, "<Q", 7)),
    ("a_reference_of_another_inode", "3.refs", put_extent_item(one_use, 33, "<Q", 9999)),
    ("a_reference_of_another_offset", "3.refs", put_extent_item(one_use, 41, "<Q", 1 << 30)),
    ("a_reference_counted_twice", "3.refs", put_extent_item(one_use, 49, "<I", 2)),
    ("a_reference_counted_zero_times", "3.ref-once", put_extent_item(one_use, 49, "<I", 0)),
    ("more_references_than_there_are", "3.refs", put_extent_item(one_use, 0, "<Q", 2)),
):
    DONE.__name__ = NAME
    change(CLAUSE)(DONE)


@change("3.form")
def a_reference_that_is_cut(edit):
    body = edit.body(SPACE, one_use(edit))
    del body[-1:]


@change("3.form")
def an_item_without_an_extent(edit):
    edit.insert(SPACE, Key(free_address(edit, forms.DATA), forms.SHARED_DATA_REF, BLOCK), struct.pack("<I", 1))


@change("3.ref-order")
def two_references_in_the_wrong_order(edit):
    body = edit.body(SPACE, two_uses(edit))
    body[24:] = body[53:82] + body[24:53]


@change("3.ref-once")
def a_reference_twice(edit):
    body = edit.body(SPACE, one_use(edit))
    body += body[24:53]
    edit.put(SPACE, one_use(edit), 0, "<Q", 2)


def in_its_own_item(edit, more):
    """The one reference to an extent in an item of its own, under its hash and some more."""
    key = one_use(edit)
    body = edit.body(SPACE, key)
    ref = bytes(body[25:53])
    del body[24:]
    hashed = data_ref_hash(*struct.unpack_from("<QQQ", ref))
    edit.insert(SPACE, Key(key.objectid, forms.DATA_REF, hashed + more), ref)


@change(None)
def a_reference_in_its_own_item(edit):
    in_its_own_item(edit, 0)


@change("3.ref-key")
def a_reference_under_another_hash(edit):
    in_its_own_item(edit, 1000)


@change("3.extent")
def data_without_an_extent(edit):
    edit.remove(SPACE, one_use(edit))


@change("3.extent")
def a_node_without_an_extent(edit):
    edit.remove(SPACE, first_node(edit))


@change("3.extent")
def an_extent_of_nothing(edit):
    new_extent(edit)


@change("3.align")
def an_extent_of_4095_bytes(edit):
    key = one_use(edit)
    edit.move(SPACE, key, key._replace(offset=key.offset - 1))


@change("3.align")
def an_extent_of_no_bytes(edit):
    edit.insert(SPACE, Key(free_address(edit, forms.DATA), forms.EXTENT, 0), struct.pack("<QQQ", 0, 1, 1))


@change("3.level")
def another_level_of_a_node(edit):
    key = tree_leaf(edit)
    edit.move(SPACE, key, key._replace(offset=1))


@change("3.owner")
def a_leaf_of_a_tree_that_has_it_not(edit):
    edit.node_put(edit.first_leaf(TREE), 88, "<Q", 256)
    edit.put(SPACE, tree_leaf(edit), 25, "<Q", 256)


@change("3.full")
def a_node_of_a_balance_that_is_not_full(edit):
    edit.node_put(edit.first_leaf(TREE), 56, "<B", 3)


@change("3.features")
def small_node_items_without_their_feature(edit):
    edit.super(188, "<Q", edit.super_number(188) & ~0x100)


# ---- places ------------------------------------------------------------------------------------------------------------


def move_node(edit, tree, address, key):
    """Puts the root of a tree to another address of the same chunk, with all that names it."""
    old = edit.root(tree)
    data = bytearray(edit.volume.node(old).data)
    struct.pack_into("<Q", data, 48, address)
    data[:32] = edit.volume.sum(bytes(data[32:])).ljust(32, b"\0")
    edit.disk(edit.volume.place(address)[1], data)
    edit.put(forms.ROOT_TREE, key, 176, "<Q", address)
    item = Key(old, forms.METADATA, edit.volume.node(old).level)
    edit.move(SPACE, item, item._replace(objectid=address))


@change("4.stripe")
def a_node_over_a_multiple_of_64_kib(edit):
    free = free_address(edit, forms.META, 131072)
    move_node(edit, forms.DATA_RELOCATION_TREE, (free // 65536 + 1) * 65536 - BLOCK, Key(forms.DATA_RELOCATION_TREE, forms.ROOT, 0))


@change("4.chunk")
def a_node_in_a_chunk_of_data(edit):
    size = edit.volume.super.nodesize
    free = -(-free_address(edit, forms.DATA, 2 * size) // size) * size
    move_node(edit, forms.DATA_RELOCATION_TREE, free, Key(forms.DATA_RELOCATION_TREE, forms.ROOT, 0))
    for group in edit.keys(SPACE, forms.BLOCK_GROUP):
        if group.objectid <= free < group.objectid + group.offset:
            edit.add(SPACE, group, 0, "<Q", size)
        if group.objectid <= edit.root(forms.DATA_RELOCATION_TREE) < group.objectid + group.offset:
            edit.add(SPACE, group, 0, "<Q", -size)


@change("4.apart")
def data_that_overlaps_other_data(edit):
    """A file's extent begins a block earlier on the disk, and its extent too."""
    for key in data_extents(edit, 1) + data_extents(edit, 2):
        start = key.objectid - BLOCK
        uses = [(tree, it) for tree in (TREE, 256) for it in edit.keys(tree, forms.FILE_EXTENT) if uses_disk(edit, tree, it, key.objectid)]
        if any(it.objectid + it.offset == key.objectid and it.offset > BLOCK for it in edit.keys(SPACE, forms.EXTENT)):
            for tree, it in uses:
                edit.put(tree, it, 21, "<Q", start)
            edit.move(SPACE, key, key._replace(objectid=start))
            return
    raise LookupError("no two extents touch")


def uses_disk(edit, tree, key, address):
    body = edit.body(tree, key)
    return body[20] != forms.INLINE and struct.unpack_from("<Q", body, 21)[0] == address


@change("4.node-twice")
def a_node_twice_in_a_tree(edit):
    node = edit.volume.node(edit.root(TREE))
    edit.node_put(node.address, 101 + 33 + 17, "<Q", node.entries[0][1])


# ---- block groups, chunks and the device -------------------------------------------------------------------------------


def groups(edit):
    return edit.keys(SPACE, forms.BLOCK_GROUP)


@change("6.form")
def a_block_group_of_another_object(edit):
    edit.put(SPACE, groups(edit)[0], 8, "<Q", 257)


@change("6.form")
def a_short_block_group(edit):
    edit.replace(SPACE, groups(edit)[0], edit.body(SPACE, groups(edit)[0])[:23])


@change("6.group")
def a_block_group_of_another_type(edit):
    edit.put(SPACE, groups(edit)[0], 16, "<Q", forms.META)


@change("6.group")
def a_chunk_without_its_block_group(edit):
    edit.remove(SPACE, groups(edit)[-1])


@change("6.group")
def a_block_group_without_a_chunk(edit):
    edit.insert(SPACE, Key(1 << 40, forms.BLOCK_GROUP, 1 << 20), struct.pack("<QQQ", 0, 256, 1))


@change("6.used")
def a_block_group_that_uses_more(edit):
    edit.add(SPACE, groups(edit)[0], 0, "<Q", BLOCK)
    edit.super(120, "<Q", edit.super_number(120) + BLOCK)


def chunk_keys(edit, kind):
    return [key for key in edit.keys(forms.CHUNK_TREE, forms.CHUNK) if edit.number(forms.CHUNK_TREE, key, 24) & kind]


def put_chunk(at, layout, value):
    """A change of a chunk of data."""

    def done(edit):
        edit.put(forms.CHUNK_TREE, chunk_keys(edit, forms.DATA)[0], at, layout, value)

    return done


for NAME, CLAUSE, DONE in (
    ("stripes_of_32_kib", "7.chunk", put_chunk(16, "<Q", 32768)),
    ("a_chunk_with_sectors_of_8192_bytes", "7.chunk", put_chunk(40, "<I", 8192)),
    ("a_chunk_without_bytes", "7.chunk", put_chunk(0, "<Q", 0)),
    ("a_chunk_of_two_stripes_with_one", "7.chunk-form", put_chunk(44, "<H", 2)),
    ("a_stripe_on_device_9", "7.stripe", put_chunk(48, "<Q", 9)),
    ("a_stripe_of_another_device_uuid", "7.stripe", put_chunk(64, "<Q", 9)),
    ("a_stripe_behind_the_end", "7.stripe", put_chunk(56, "<Q", 1 << 40)),
    ("another_width_of_input", None, put_chunk(36, "<I", 65536)),
):
    DONE.__name__ = NAME
    change(CLAUSE)(DONE)


@change("7.apart")
def two_chunks_on_one_place(edit):
    """The device extent of the second chunk is moved too, as far as two items can't have one key."""
    first, second = chunk_keys(edit, forms.DATA)[:2]
    place, old = edit.number(forms.CHUNK_TREE, first, 56) + 65536, edit.number(forms.CHUNK_TREE, second, 56)
    edit.put(forms.CHUNK_TREE, second, 56, "<Q", place)
    key = next(it for it in edit.keys(forms.DEVICE_TREE, forms.DEVICE_EXTENT) if it.offset == old)
    edit.move(forms.DEVICE_TREE, key, key._replace(offset=place))


@change("7.key")
def a_chunk_of_another_object(edit):
    key = chunk_keys(edit, forms.DATA)[-1]
    edit.move(forms.CHUNK_TREE, key, key._replace(objectid=257))


def device_extents(edit):
    return edit.keys(forms.DEVICE_TREE, forms.DEVICE_EXTENT)


@change("7.extent")
def a_device_extent_of_another_length(edit):
    edit.add(forms.DEVICE_TREE, device_extents(edit)[0], 24, "<Q", -65536)


@change("7.extent")
def a_device_extent_of_another_chunk(edit):
    edit.add(forms.DEVICE_TREE, device_extents(edit)[0], 16, "<Q", 65536)


@change("7.extent")
def a_stripe_without_its_device_extent(edit):
    edit.remove(forms.DEVICE_TREE, device_extents(edit)[0])


@change("7.extent")
def all_stripes_on_device_9(edit):
    for key in edit.keys(forms.CHUNK_TREE, forms.CHUNK):
        edit.put(forms.CHUNK_TREE, key, 48, "<Q", 9)
    edit.super(811 + 17 + 48, "<Q", 9)


@change("8.reserved")
def the_chunk_tree_in_the_first_mib(edit):
    """The system chunk begins at byte 0 of the device."""
    (key,) = chunk_keys(edit, forms.SYSTEM)
    old = edit.number(forms.CHUNK_TREE, key, 56)
    extent = next(it for it in device_extents(edit) if it.offset == old)
    edit.move(forms.DEVICE_TREE, extent, extent._replace(offset=0))
    edit.put(forms.CHUNK_TREE, key, 56, "<Q", 0)
    edit.super(811 + 17 + 56, "<Q", 0)
    root = edit.root(forms.CHUNK_TREE)
    data = edit.nodes()[root]
    data[:32] = edit.volume.sum(bytes(data[32:])).ljust(32, b"\0")
    edit.disk(root - key.offset, data)


DEVICE_KEY = Key(1, forms.DEVICE, 1)


@change("9.used")
def another_sum_of_used_bytes(edit):
    edit.super(120, "<Q", edit.super_number(120) + 1)


@change("7.stripe")
def a_device_that_ends_before_its_chunks(edit):
    """Both device items and the superblock tell it."""
    less = edit.super_number(112) // 8 // BLOCK * BLOCK
    edit.super(112, "<Q", less)
    edit.super(201 + 8, "<Q", less)
    edit.put(forms.CHUNK_TREE, DEVICE_KEY, 8, "<Q", less)


def put_device(in_super, in_tree, at, layout, value):
    """A change of a field of the device's item, in the superblock, in the chunk tree, or in both."""

    def done(edit):
        if in_super:
            edit.super(201 + at, layout, value)
        if in_tree:
            edit.put(forms.CHUNK_TREE, DEVICE_KEY, at, layout, value)

    return done


for NAME, DONE in {
    "another_number_in_the_superblocks_device": put_device(True, False, 0, "<Q", 5),
    "another_number_in_the_device_item": put_device(False, True, 0, "<Q", 7),
    "another_fsid_in_the_superblocks_device": put_device(True, False, 82, "<Q", 5),
    "another_fsid_in_both_device_items": put_device(True, True, 82, "<Q", 5),
    "another_uuid_in_the_device_item": put_device(False, True, 66, "<Q", 5),
    "other_used_bytes_of_the_device": put_device(True, True, 16, "<Q", 1 << 20),
    "other_bytes_of_the_device": put_device(True, True, 8, "<Q", 1 << 30),
}.items():
    DONE.__name__ = NAME
    change("9.device")(DONE)


@change("9.device")
def a_device_item_of_another_number(edit):
    edit.move(forms.CHUNK_TREE, DEVICE_KEY, DEVICE_KEY._replace(offset=2))


@change("9.device")
def no_device_item(edit):
    edit.remove(forms.CHUNK_TREE, DEVICE_KEY)
