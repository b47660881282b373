"""Changes a volume in memory: fields of its superblock, nodes and items; items that are added, removed or moved. In
the end the keys above changed nodes and all checksums are put right, so that nothing but the change is wrong."""

import struct
from pathlib import Path

from . import forms
from .forms import KEY, Key
from .volume import Volume

HEAD = 101


class Base:
    """A sound volume that is read once. Edits are made of it, and leave it as it is."""

    def __init__(self, path):
        self.path = Path(path)
        self.volume = Volume(path).read()
        self.leaf_of, self.parents = {}, {}
        for tree in self.volume.trees.values():
            for address in tree.nodes:
                node = self.volume.node(address)
                for entry in node.entries:
                    if node.level:
                        self.parents[entry[1]] = address
                    else:
                        self.leaf_of[tree.number, entry[0]] = address


class Edit:
    """One changed volume. Changes of items come first, then those of raw bytes; `patches` ends it."""

    def __init__(self, base):
        self.base, self.volume = base, base.volume
        self.block = bytearray(self.volume.block)
        self.leaves, self.raw, self.unsealed, self.data = {}, [], set(), []
        self.keep_keys = False

    # ---- the superblock --------------------------------------------------------------------------------------------

    def super(self, at, layout, *values):
        struct.pack_into(layout, self.block, at, *values)

    def super_number(self, at, layout="<Q"):
        return struct.unpack_from(layout, self.block, at)[0]

    # ---- items -----------------------------------------------------------------------------------------------------

    def items(self, address):
        """The items of a leaf, to be changed."""
        if address not in self.leaves:
            self.leaves[address] = [[key, bytearray(body)] for key, body in self.volume.node(address).entries]
        return self.leaves[address]

    def keys(self, tree, *kinds):
        return [key for key, _ in self.volume.trees[tree].of_kind(*kinds)]

    def leaf(self, tree, key):
        """The leaf in which an item stands, or would stand."""
        if (tree, key) in self.base.leaf_of:
            return self.base.leaf_of[tree, key]
        leaves = [a for a in self.volume.trees[tree].nodes if not self.volume.node(a).level]
        before = [a for a in leaves if self.volume.node(a).entries and self.volume.node(a).entries[0][0] <= key]
        return before[-1] if before else leaves[0]

    def item(self, tree, key):
        return next(it for it in self.items(self.leaf(tree, key)) if it[0] == key)

    def body(self, tree, key):
        return self.item(tree, key)[1]

    def number(self, tree, key, at, layout="<Q"):
        return struct.unpack_from(layout, self.body(tree, key), at)[0]

    def put(self, tree, key, at, layout, *values):
        """Writes numbers into the body of an item."""
        struct.pack_into(layout, self.body(tree, key), at, *values)

    def add(self, tree, key, at, layout, more):
        self.put(tree, key, at, layout, self.number(tree, key, at, layout) + more)

    def remove(self, tree, key):
        items = self.items(self.leaf(tree, key))
        items.remove(self.item(tree, key))

    def insert(self, tree, key, body):
        items = self.items(self.leaf(tree, key))
        items.append([Key(*key), bytearray(body)])
        items.sort(key=lambda it: it[0])

    def replace(self, tree, key, body):
        self.item(tree, key)[1][:] = body

    def move(self, tree, key, new):
        """Gives an item another key."""
        body = self.body(tree, key)
        self.remove(tree, key)
        self.insert(tree, Key(*new), body)

    # ---- bytes of nodes and of the disk ----------------------------------------------------------------------------

    def root(self, tree):
        return self.volume.trees[tree].root

    def first_leaf(self, tree):
        return next(a for a in self.volume.trees[tree].nodes if not self.volume.node(a).level)

    def node_put(self, address, at, layout, *values):
        """Writes numbers into a node, behind all other changes of it."""
        self.raw.append((address, at, struct.pack(layout, *values)))

    def disk(self, at, data):
        self.data.append((at, bytes(data)))

    # ---- the end ---------------------------------------------------------------------------------------------------

    def leaf_bytes(self, address):
        """A leaf with these items, packed from its end."""
        size = self.volume.super.nodesize
        items, end = self.leaves[address], size - HEAD
        heads, datas = b"", b""
        for key, body in items:
            end -= len(body)
            heads += KEY.pack(*key) + struct.pack("<II", end, len(body))
            datas = bytes(body) + datas
        if HEAD + len(heads) > HEAD + end:
            raise ValueError(f"the leaf {address} has no room")
        head = bytearray(self.volume.node(address).data[:HEAD])
        struct.pack_into("<I", head, 96, len(items))
        return head + heads + bytes(size - HEAD - len(heads) - len(datas)) + datas

    def nodes(self):
        """The bytes of all changed nodes, by address."""
        changed = {address: self.leaf_bytes(address) for address in self.leaves}

        def node(address):
            return changed.setdefault(address, bytearray(self.volume.node(address).data))

        for address in list(changed):
            while not self.keep_keys and address in self.base.parents and changed[address][96:100] != bytes(4):
                above = self.base.parents[address]
                slot = [entry[1] for entry in self.volume.node(above).entries].index(address)
                node(above)[HEAD + 33 * slot : HEAD + 33 * slot + 17] = changed[address][HEAD : HEAD + 17]
                address = above
        for address, at, data in self.raw:
            node(address)[at : at + len(data)] = data
        return changed

    def patches(self):
        """The changed bytes of the disk, as pairs of place and bytes."""
        found = list(self.data)
        for address, data in self.nodes().items():
            if address not in self.unsealed:
                data[:32] = self.volume.sum(bytes(data[32:])).ljust(32, b"\0")
            _, place = self.volume.place(address)
            found.append((place, bytes(data)))
        if self.block != self.volume.block:
            if forms.SUPER_AT not in self.unsealed:
                self.block[:32] = self.volume.sum(bytes(self.block[32:])).ljust(32, b"\0")
            found.append((forms.SUPER_AT, bytes(self.block)))
        return found
