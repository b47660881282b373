"""Part 1: the superblock, the nodes of trees, the pointers to them and the root items."""

from . import forms
from .forms import KEY, Key

NEVER_EMPTY = (forms.ROOT_TREE, forms.EXTENT_TREE, forms.CHUNK_TREE, forms.DEVICE_TREE, forms.FILE_TREE, forms.DATA_RELOCATION_TREE)
NEEDED = (forms.EXTENT_TREE, forms.DEVICE_TREE, forms.FILE_TREE, forms.SUM_TREE, forms.DATA_RELOCATION_TREE)
# the kinds of items that are in one tree alone
ONLY_IN = {
    forms.CHUNK: forms.CHUNK_TREE,
    forms.DEVICE: forms.CHUNK_TREE,
    forms.EXTENT: forms.EXTENT_TREE,
    forms.METADATA: forms.EXTENT_TREE,
    forms.BLOCK_GROUP: forms.EXTENT_TREE,
    forms.ROOT: forms.ROOT_TREE,
    forms.DEVICE_EXTENT: forms.DEVICE_TREE,
    forms.SUMS: forms.SUM_TREE,
}
HEAD = 101


class Node:
    """A node whose bytes could be read. `entries` are keys and bodies in a leaf, and keys, addresses and generations
    above."""

    def __init__(self, volume, address, data):
        self.address, self.data = address, data
        self.fsid, self.bytenr, flags = data[32:48], *forms.unpack("<QQ", data, 48)
        self.flags, self.revision = flags & (1 << 56) - 1, flags >> 56
        self.generation, self.owner, self.count, self.level = forms.unpack("<QQIB", data, 80)
        self.entries = leaf_items(volume, self) if self.level == 0 else pointers(volume, self)


def read(volume, address):
    """The node at an address, or None. Its own fields, keys and areas are looked at."""
    size, found = volume.super.nodesize, volume.found
    data = volume.bytes_at(address, size)
    if data is None or address % forms.SECTOR:
        found("1.mapped", address, "no chunk has a node here")
        return None
    width = len(volume.sum(b""))
    if volume.sum(data[32:]) != data[:width]:
        found("1.node-sum", address, "the node's checksum is wrong")
        return None
    node = Node(volume, address, data)
    check_head(volume, node)
    keys = [entry[0] for entry in node.entries]
    for before, key in zip(keys, keys[1:]):
        if key <= before:
            found("1.key-order", address, f"{key} comes behind {before}")
    return node


def check_head(volume, node):
    """1.node-head: a node has its own address, the volume's fsid and a level below 8 (btree_readpage_end_io_hook of
    Linux).
    1.written: it has the flag `written`, and the revision 1 of its refs (Linux from 6.7 on refuses it without; btrfs
    check).
    1.node-generation: its generation is at most the superblock's (btrfs check, transid of Linux)."""
    found, head = volume.found, volume.super
    if node.bytenr != node.address:
        found("1.node-head", node.address, f"the node is that of {node.bytenr}")
    if node.fsid != head.fsid:
        found("1.node-head", node.address, "the node is of another volume")
    if node.level >= forms.MAX_LEVEL:
        found("1.node-head", node.address, f"the node's level is {node.level}")
    if not node.flags & forms.WRITTEN or node.flags & ~(forms.WRITTEN | forms.RELOCATED) or node.revision != 1:
        found("1.written", node.address, f"the node has the flags {node.flags:#x} and the revision {node.revision}")
    if node.generation > head.generation:
        found("1.node-generation", node.address, f"the node's generation is {node.generation}")
    if not node.count and (node.level or node.owner in NEVER_EMPTY):
        found("1.empty", node.address, f"a node of tree {node.owner} is empty")


def leaf_items(volume, node):
    """1.count: the heads of items fit into the node.
    1.packed: the first item's data ends with the node, each other's where the one before begins, and none lies in
    the heads (check_leaf of Linux's tree-checker)."""
    size, end, items = volume.super.nodesize, volume.super.nodesize - HEAD, []
    if HEAD + 25 * node.count > size:
        volume.found("1.count", node.address, f"the leaf has {node.count} items")
        return []
    for i in range(node.count):
        objectid, kind, offset, start, length = forms.unpack("<QBQII", node.data, HEAD + 25 * i)
        if start + length != end or HEAD + start < HEAD + 25 * node.count:
            volume.found("1.packed", node.address, f"the data of item {i} is at {start} with {length} bytes, and should end at {end}")
        items.append((Key(objectid, kind, offset), node.data[HEAD + start : HEAD + start + length]))
        end = start
    return items


def pointers(volume, node):
    """1.count: the pointers fit into the node (btrfs_check_node of Linux's tree-checker)."""
    if HEAD + 33 * node.count > volume.super.nodesize:
        volume.found("1.count", node.address, f"the node has {node.count} pointers")
        return []
    found = []
    for i in range(node.count):
        at = HEAD + 33 * i
        found.append((Key(*KEY.unpack_from(node.data, at)), *forms.unpack("<QQ", node.data, at + 17)))
    return found


def check_pointer(volume, tree, node, level, generation, first):
    """1.pointer: a node has the level and the generation that the pointer to it says (btrfs_verify_level_key,
    verify_parent_transid of Linux).
    1.child-key: the pointer's key is the first key of the node (btrfs_verify_level_key; "Wrong key of child node" of
    btrfs check).
    1.owner: a node belongs to its tree; in a subvolume to any subvolume, since trees share nodes (btrfs_check_eb_owner
    of Linux).
    1.empty: only the root of a tree may be a leaf without items (check_leaf of Linux's tree-checker)."""
    found = volume.found
    if (node.level, node.generation) != (level, generation):
        found("1.pointer", node.address, f"level {node.level} and generation {node.generation} are not {level} and {generation}")
    if first is not None and node.entries and node.entries[0][0] != first:
        found("1.child-key", node.address, f"the pointer has {first}, the node {node.entries[0][0]}")
    if first is not None and not node.count:
        found("1.empty", node.address, "a node that is not the root is empty")
    if not may_own(tree.number, node.owner):
        found("1.owner", node.address, f"a node of tree {node.owner} stands in tree {tree.number}")


def may_own(number, owner):
    """Whether a tree may have a node of this owner."""
    return owner == number or is_subvolume(number) and is_subvolume(owner)


def is_subvolume(number):
    """The number of a tree of files that users see: 5, or one from 256 on below 2^48 (is_fstree of Linux)."""
    return number == forms.FILE_TREE or forms.FIRST_FREE <= number < 1 << 48


def check_root_item(volume, key, item):
    """1.root-item: a root item has the place 0, or in a snapshot the transaction that made it (btrfs_read_roots of
    Linux); its fields are in their ranges (check_root_item of Linux's tree-checker), its generation is at most the
    superblock's, and a tree of files has the root directory 256 (btrfs check). It is no tree of a balance that isn't
    done, and no removal of the tree has begun: the refs of a tree of files are not 0. Linux ends both when it mounts
    the volume. Other trees are not removed so, and mkfs.btrfs gives the tree of quotas the refs 0."""
    found, highest, tree = volume.found, volume.super.generation, key.objectid
    for wrong, what in (
        (tree == forms.RELOCATION_TREE, "a balance has not ended"),
        (key.offset and not is_subvolume(tree), f"the place of its root item is {key.offset}, not 0"),
        (may_hold_files(tree) and item.refs != 1, f"its refs are {item.refs}: where they are 0 it is being removed"),
        (item.generation > highest, f"its generation is {item.generation}"),
        (item.generation_v2 > highest, f"its second generation is {item.generation_v2}"),
        (item.last_snapshot > highest, f"its last snapshot is of generation {item.last_snapshot}"),
        (item.address % forms.SECTOR, f"its address is {item.address}"),
        (item.level_dropped or item.drop != forms.ZERO_KEY, "a removal of it has begun"),
        (item.flags & ~1, f"its flags are {item.flags:#x}"),
        (may_hold_files(tree) and item.dirid != forms.FIRST_FREE, f"its root directory is {item.dirid}"),
    ):
        if wrong:
            found("1.root-item", tree, what)


def may_hold_files(tree):
    return is_subvolume(tree) or tree == forms.DATA_RELOCATION_TREE


def check_superblock(volume):
    """1.super-sum: the superblock's checksum is right.
    1.super-field: its fields are those that btrfs_validate_super of Linux and btrfs_check_super of btrfs-progs take."""
    head, found = volume.super, volume.found
    width = len(volume.sum(b""))
    if volume.sum(volume.block[32:]) != volume.block[:width]:
        found("1.super-sum", forms.SUPER_AT, "the superblock's checksum is wrong")
    for wrong, what in (
        (head.bytenr != forms.SUPER_AT, f"its address is {head.bytenr}"),
        (head.flags & ~(1 << 0 | 1 << 1), f"its flags are {head.flags:#x}"),
        (max(head.root_level, head.chunk_level, head.log_level) >= forms.MAX_LEVEL, "a level is too high"),
        (head.root % forms.SECTOR or head.chunk_root % forms.SECTOR, "the address of a root is no multiple of 4096"),
        (head.leafsize != head.nodesize, f"leaves have {head.leafsize} bytes"),
        (head.stripesize != forms.SECTOR, f"its stripes have {head.stripesize} bytes"),
        (not 97 <= head.array_size <= 2048, f"its array has {head.array_size} bytes"),
        (head.total_bytes % forms.SECTOR or not 0 < head.total_bytes <= volume.disk.length, f"it has {head.total_bytes} bytes"),
        (head.chunk_generation > head.generation, f"the generation of the chunk tree is {head.chunk_generation}"),
    ):
        if wrong:
            found("1.super-field", forms.SUPER_AT, what)


def check_array(volume):
    """1.array: the superblock's array has the system chunks, as the chunk tree has them, and no others
    (btrfs_read_sys_array of Linux)."""
    system = []
    for key, body in volume.trees[forms.CHUNK_TREE].of_kind(forms.CHUNK):
        if len(body) >= 48 and forms.unpack("<Q", body, 24)[0] & forms.SYSTEM:
            system.append((key, body))
    for key, body in volume.array:
        if (key, body) not in system:
            volume.found("1.array", key.offset, "a chunk of the array is no system chunk of the chunk tree")
    for key, body in system:
        if (key, body) not in volume.array:
            volume.found("1.array", key.offset, "a system chunk is not in the superblock's array")


def check_trees(volume):
    """1.trees: the trees are there without which Linux mounts no volume (btrfs_read_roots, btrfs_get_root_ref).
    1.kind: items of some kinds are in one tree alone (check_type_with_root of btrfs check)."""
    for number in NEEDED:
        if number not in volume.trees:
            volume.found("1.trees", number, "there is no such tree")
    for tree in volume.trees.values():
        for key, _ in tree.items:
            if ONLY_IN.get(key.kind, tree.number) != tree.number:
                volume.found("1.kind", tree.number, f"an item of kind {key.kind} stands in this tree")


def check(volume):
    check_superblock(volume)
    check_array(volume)
    check_trees(volume)
