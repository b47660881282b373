"""Part 3: the extent tree is what a recount of all nodes and of all data finds. Each node is met once, however many
trees have it."""

from collections import Counter, defaultdict, namedtuple

from . import forms
from .disk import data_ref_hash
from .forms import FULL, MAX64, OffForm
from .nodes import may_hold_files
from .volume import EXTENDED_IREF, SKINNY

# A reference: its kind, and what it names. By tree: the tree, and of data also inode and offset; shared: the node that refers.
Ref = namedtuple("Ref", "kind names")
DATA_FLAG, TREE_BLOCK = 1, 2


class Extent:
    """An extent, as the extent tree tells it. `refs` counts the references, in the item and in items of their own."""

    def __init__(self, start, length, head, level):
        self.start, self.length, self.level = start, length, level
        self.total, self.generation, self.flags = head
        self.refs = Counter()

    def is_node(self):
        return self.flags & (DATA_FLAG | TREE_BLOCK) == TREE_BLOCK


class Recount:
    """What the extent tree tells (`extents` by their starts, `groups`), and what is there: `nodes`, `data` of start
    and length, each with a count of references."""

    def __init__(self, volume):
        self.volume, self.found = volume, volume.found
        self.extents, self.groups = {}, []
        self.read_extents()
        self.nodes, self.data = defaultdict(Counter), defaultdict(Counter)
        self.count()

    def read_extents(self):
        """3.form: items of the extent tree are extents, references to the extent before, and block groups, each on
        its grammar (check_extent_item, check_simple_keyed_refs, check_extent_data_ref of Linux's tree-checker)."""
        last = None
        for key, body in self.volume.items(forms.EXTENT_TREE):
            try:
                if key.kind == forms.BLOCK_GROUP:
                    self.groups.append((key, forms.block_group(body)))
                elif key.kind in (forms.EXTENT, forms.METADATA):
                    last = self.read_extent(key, body)
                    self.extents[key.objectid] = last
                elif last is not None and last.start == key.objectid:
                    self.read_own_item(last, key, body)
                else:
                    raise OffForm("belongs to no extent")
            except OffForm as off:
                self.found("3.form" if key.kind != forms.BLOCK_GROUP else "6.form", key.objectid, f"the item of kind {key.kind} {off}")

    def read_extent(self, key, body):
        """3.level: of a node the level is told (check_extent_item of Linux's tree-checker)."""
        head, at = forms.unpack("<QQQ", body), 24
        length, level = key.offset, None
        if key.kind == forms.METADATA:
            length, level = self.volume.super.nodesize, key.offset
        elif head[2] & (DATA_FLAG | TREE_BLOCK) == TREE_BLOCK:
            level, at = forms.unpack("<17xB", body, at)[0], at + 18
        extent = Extent(key.objectid, length, head, level)
        order = []
        while at < len(body):
            kind = body[at]
            if kind in (forms.TREE_REF, forms.SHARED_TREE_REF):
                (names, count), at = (forms.unpack("<Q", body, at + 1), 1), at + 9
            elif kind == forms.DATA_REF:
                *names, count = forms.unpack("<QQQI", body, at + 1)
                at += 29
            elif kind == forms.SHARED_DATA_REF:
                *names, count = forms.unpack("<QI", body, at + 1)
                at += 13
            else:
                raise OffForm(f"has a reference of kind {kind}")
            order.append(Ref(kind, tuple(names)))
            self.add_ref(extent, order[-1], count)
        self.check_order(extent, order)
        return extent

    def read_own_item(self, extent, key, body):
        """A reference in an item of its own.
        3.ref-key: that to data by tree stands under its hash, or behind that where it was taken
        (hash_extent_data_ref of Linux)."""
        if key.kind in (forms.TREE_REF, forms.SHARED_TREE_REF):
            forms.whole("<", body)
            self.add_ref(extent, Ref(key.kind, (key.offset,)), 1)
        elif key.kind == forms.SHARED_DATA_REF:
            self.add_ref(extent, Ref(key.kind, (key.offset,)), *forms.whole("<I", body))
        elif key.kind == forms.DATA_REF:
            *names, count = forms.whole("<QQQI", body)
            if not 0 <= key.offset - data_ref_hash(*names) < 64:
                self.found("3.ref-key", extent.start, f"the reference {names} stands under {key.offset}")
            self.add_ref(extent, Ref(key.kind, tuple(names)), count)
        else:
            raise OffForm("is of no kind of this tree")

    def add_ref(self, extent, ref, count):
        """3.ref-once: a reference stands once, with a count that is not 0, and is one to a node or to data as the
        extent is (check_extent_item of Linux's tree-checker; "backref ... not unique" of btrfs check)."""
        to_node = ref.kind in (forms.TREE_REF, forms.SHARED_TREE_REF)
        if ref in extent.refs or not count or to_node != extent.is_node():
            self.found("3.ref-once", extent.start, f"the reference {ref.kind} {ref.names} with the count {count}")
        extent.refs[ref] += count

    def check_order(self, extent, order):
        """3.ref-order: in an extent's item kinds ascend; in a kind the trees or nodes that are named descend, and of
        data the hashes (check_extent_item of Linux's tree-checker from 6.8 on)."""
        keys = [(ref.kind, -(data_ref_hash(*ref.names) if ref.kind == forms.DATA_REF else ref.names[0])) for ref in order]
        if keys != sorted(keys):
            self.found("3.ref-order", extent.start, "the references in the item are not in their order")

    def is_full(self, address):
        """Whether pointers in a node are counted by its address, and not by its owner."""
        return address in self.extents and bool(self.extents[address].flags & FULL)

    def count(self):
        """All references that are there. A root has one by its tree. What a node names has one by the node where
        that is `full`, else by the owner of the node (add_tree_backref, process_data of btrfs check; __btrfs_mod_ref
        of Linux)."""
        met = set()
        for tree in self.volume.trees.values():
            self.nodes[tree.root][Ref(forms.TREE_REF, (tree.number,))] += 1
            for address in tree.nodes:
                node = self.volume.node(address)
                if address not in met and node is not None:
                    met.add(address)
                    self.count_node(node)

    def count_node(self, node):
        full = self.is_full(node.address)
        if node.level:
            ref = Ref(forms.SHARED_TREE_REF, (node.address,)) if full else Ref(forms.TREE_REF, (node.owner,))
            for _, child, _ in node.entries:
                self.nodes[child][ref] += 1
            return
        for key, body in node.entries:
            if key.kind != forms.FILE_EXTENT:
                continue
            try:
                extent = forms.file_extent(body)
            except OffForm:
                continue
            if forms.has_place(extent):
                names = (node.owner, key.objectid, key.offset - extent.offset & MAX64)
                ref = Ref(forms.SHARED_DATA_REF, (node.address,)) if full else Ref(forms.DATA_REF, names)
                self.data[extent.disk, extent.disk_length][ref] += 1


def check_items(recount):
    """3.extent: each node and each disk range of data has an extent of its length and kind, and there is no other
    ("extent item ... not found", "backpointer mismatch" of btrfs check).
    3.refs: the references of an extent are those that are counted, and their sum is told ("ref mismatch" of btrfs
    check)."""
    size = recount.volume.super.nodesize
    there = {start: (size, refs, True) for start, refs in recount.nodes.items()}
    for (start, length), refs in recount.data.items():
        if start in there:
            recount.found("4.apart", start, "two extents begin here")
        there[start] = (length, refs, False)
    for start, (length, refs, is_node) in sorted(there.items()):
        extent = recount.extents.get(start)
        if extent is None or (extent.length, extent.is_node()) != (length, is_node):
            recount.found("3.extent", start, f"there is no extent for {length} bytes of {'a node' if is_node else 'data'}")
        elif extent.refs != refs or extent.total != sum(refs.values()):
            told = sorted((extent.refs - refs).items())[:1]
            counted = sorted((refs - extent.refs).items())[:1]
            recount.found("3.refs", start, f"{extent.total} references are told, {sum(refs.values())} are there; told alone {told}, there alone {counted}")
    for start in sorted(recount.extents.keys() - there.keys()):
        recount.found("3.extent", start, "nothing refers to this extent")


def check_fields(recount):
    """3.align: extents begin and end on multiples of 4096, and are not empty (check_extent_item of Linux's
    tree-checker).
    3.generation: their generation is at most the superblock's (check_extent_item; btrfs check).
    3.flags: an extent is of data or of a node, and only a node is `full` (check_extent_item).
    3.level: of a node its level is told (btrfs check)."""
    highest = recount.volume.super.generation
    for start, extent in recount.extents.items():
        if start % forms.SECTOR or extent.length % forms.SECTOR or not extent.length:
            recount.found("3.align", start, f"the extent has {extent.length} bytes")
        if extent.generation > highest:
            recount.found("3.generation", start, f"the extent's generation is {extent.generation}")
        if extent.flags & ~FULL not in (DATA_FLAG, TREE_BLOCK) or extent.flags == DATA_FLAG | FULL or (extent.level is not None) != extent.is_node():
            recount.found("3.flags", start, f"the extent's flags are {extent.flags:#x}")
        node = recount.volume.nodes.get(start)
        if extent.is_node() and node is not None and node.level != extent.level:
            recount.found("3.level", start, f"the extent tells the level {extent.level} of a node of level {node.level}")


def check_sharing(recount):
    """3.owner: a node that is not `full` stands in the tree of its owner ("owner ref check failed" of btrfs check).
    3.full: a node that is `full` and stands in the tree of its owner is not newer than the last snapshot of that
    tree; one that a balance made has the flag ("bad full backref" of btrfs check)."""
    trees = recount.volume.trees
    standing = {number: set(tree.nodes) for number, tree in trees.items()}
    for address in recount.nodes:
        node = recount.volume.nodes.get(address)
        if node is None:
            continue
        own = address in standing.get(node.owner, ())
        made_by_balance = node.flags & forms.RELOCATED
        if not recount.is_full(address):
            if not own:
                recount.found("3.owner", address, f"tree {node.owner} does not have this node")
            if made_by_balance:
                recount.found("3.full", address, "a node that a balance made is not full")
        elif not may_hold_files(node.owner) or own and not made_by_balance and node.generation > trees[node.owner].last_snapshot:
            recount.found("3.full", address, f"the extent of a node of tree {node.owner} is full")


def check_features(recount):
    """3.features: an item of kind 169 is there only with the feature skinny metadata (check_extent_item of Linux's
    tree-checker), an extref only with extended refs."""
    incompat = recount.volume.super.incompat
    for kind, feature in ((forms.METADATA, SKINNY), (forms.EXTREF, EXTENDED_IREF)):
        for tree in recount.volume.trees.values():
            key = next((key for key, _ in tree.of_kind(kind)), None)
            if key is not None and not incompat & feature:
                recount.found("3.features", key.objectid, f"there is an item of kind {kind}, and the incompat bit {feature:#x} is not set")


def check(recount):
    check_items(recount)
    check_fields(recount)
    check_sharing(recount)
    check_features(recount)
