"""A Btrfs volume as it is read: its superblock, its chunks, and its trees, whose nodes are each read once. What is
found here is part 1 of the definition; `nodes` has the rules of one node."""

from . import forms, nodes
from .disk import WIDTH, Disk, checksum
from .forms import Key, OffForm

# mixed backrefs, a default tree, LZO, ZSTD, large nodes, extended refs, skinny metadata, no holes
KNOWN_INCOMPAT = 0x1 | 0x2 | 0x8 | 0x10 | 0x20 | 0x40 | 0x100 | 0x200
MIXED_BACKREF, EXTENDED_IREF, SKINNY, NO_HOLES = 0x1, 0x40, 0x100, 0x200
# the free space tree, and that it is valid; files with fs-verity and a tree of block groups are not judged
FREE_SPACE_TREE, FREE_SPACE_VALID = 0x1, 0x2
NODE_SIZES = (4096, 8192, 16384, 32768, 65536)


class Unsupported(Exception):
    """The volume has a form that is not judged."""


class Findings:
    """What is wrong: for each clause where, and what."""

    def __init__(self):
        self.of_clause = {}

    def add(self, clause, where, what):
        self.of_clause.setdefault(clause, []).append((where, what))

    def lines(self):
        for clause, found in sorted(self.of_clause.items(), key=lambda item: (int(item[0].split(".")[0]), item[0])):
            where, what = found[0]
            more = f" (and {len(found) - 1} more)" if len(found) > 1 else ""
            yield f"{clause} {where} {what}{more}"


class Tree:
    """A tree: its number, where its root is, the addresses of its nodes in the order of the walk, and its items."""

    def __init__(self, number, root, offset=0, last_snapshot=0):
        self.number, self.root, self.offset, self.last_snapshot = number, root, offset, last_snapshot
        self.nodes, self.items = [], []

    def of_kind(self, *kinds):
        return ((key, body) for key, body in self.items if key.kind in kinds)


class Volume:
    """An opened volume. `findings` has what was found wrong, also while it is opened."""

    def __init__(self, path):
        self.disk, self.findings = Disk(path), Findings()
        self.found, self.nodes, self.trees, self.chunks = self.findings.add, {}, {}, []
        self.block = self.disk.read(forms.SUPER_AT, forms.SECTOR)
        if self.block[64:72] != forms.MAGIC:
            raise Unsupported("no Btrfs volume")
        self.super = forms.superblock(self.block)
        self.supported()

    def supported(self):
        """Whether the volume has a form that is judged."""
        head = self.super
        for wrong, what in (
            (head.sum_type not in WIDTH, f"checksums of type {head.sum_type}"),
            (head.sectorsize != forms.SECTOR, f"sectors of {head.sectorsize} bytes"),
            (head.nodesize not in NODE_SIZES, f"nodes of {head.nodesize} bytes"),
            (head.devices != 1, f"{head.devices} devices"),
            (head.incompat & ~KNOWN_INCOMPAT, f"incompat bits {head.incompat & ~KNOWN_INCOMPAT:#x}"),
            (head.compat_ro & ~3, f"compat_ro bits {head.compat_ro & ~3:#x}"),
            (head.log_root, f"a log that waits, at {head.log_root}"),
        ):
            if wrong:
                raise Unsupported(what)

    def place(self, address):
        """The chunk of an address, and the byte of the disk where the first stripe has it; or nothing."""
        for chunk in self.chunks:
            if chunk.logical <= address < chunk.logical + chunk.length:
                return chunk, chunk.stripes[0].offset + address - chunk.logical
        return None

    def bytes_at(self, address, length):
        """The bytes at an address, if they lie in one chunk."""
        place = self.place(address)
        if place is None or address + length > place[0].logical + place[0].length:
            return None
        data = self.disk.read(place[1], length)
        return data if len(data) == length else None

    def node(self, address):
        """The node at an address, or nothing where none can be read there. What is wrong with it is told once."""
        if address not in self.nodes:
            self.nodes[address] = nodes.read(self, address)
        return self.nodes[address]

    def sum(self, data):
        return checksum(self.super.sum_type, data)

    def read(self):
        """Reads all trees, and finds what is wrong with them."""
        self.read_array()
        head = self.super
        self.walk(Tree(forms.CHUNK_TREE, head.chunk_root), head.chunk_level, head.chunk_generation)
        self.read_chunks()
        self.walk(Tree(forms.ROOT_TREE, head.root), head.root_level, head.generation)
        for key, body in list(self.trees[forms.ROOT_TREE].of_kind(forms.ROOT)):
            self.read_root(key, body)
        return self

    def read_array(self):
        """The chunks that the superblock itself has."""
        array, at, self.array = self.super.array, 0, []
        try:
            while at < len(array):
                key = forms.key_at(array, at)
                size = forms.chunk_size(array, at + 17)
                body = array[at + 17 : at + 17 + size]
                self.array.append((key, body))
                self.add_chunk(key, body)
                at += 17 + size
        except OffForm as off:
            self.found("1.array", forms.SUPER_AT, f"the array of system chunks {off}")

    def add_chunk(self, key, body):
        """A chunk of the map, if it isn't there yet."""
        chunk = forms.chunk(key.offset, body)
        if chunk.kind & ~(1 | 2 | 4 | forms.DUP) or chunk.kind & ~forms.DUP not in (forms.DATA, forms.SYSTEM, forms.META):
            raise Unsupported(f"a chunk of type {chunk.kind:#x}")
        if chunk not in self.chunks:
            self.chunks.append(chunk)

    def read_chunks(self):
        for key, body in self.trees[forms.CHUNK_TREE].of_kind(forms.CHUNK):
            try:
                self.add_chunk(key, body)
            except OffForm as off:
                self.found("7.chunk-form", key.offset, f"the chunk item {off}")
        self.chunks.sort()

    def read_root(self, key, body):
        """Walks the tree of a root item."""
        try:
            item = forms.root_item(body)
        except OffForm as off:
            self.found("1.root-item", key.objectid, f"the root item {off}")
            return
        if key.objectid in self.trees:
            self.found("1.root-once", key.objectid, "the tree has a further root item")
            return
        nodes.check_root_item(self, key, item)
        if item.refs or not nodes.may_hold_files(key.objectid):
            self.walk(Tree(key.objectid, item.address, key.offset, item.last_snapshot), item.level, item.generation)

    def walk(self, tree, level, generation):
        """Reads the nodes of a tree in order, and looks at each pointer to one."""
        self.trees[tree.number] = tree
        if level >= forms.MAX_LEVEL:
            self.found("1.level", tree.root, f"the root's level is {level}")
            return
        last = Key(-1, 0, 0)
        waiting = [(tree.root, level, generation, None)]
        while waiting:
            address, level, generation, first = waiting.pop()
            tree.nodes.append(address)
            node = self.node(address)
            if node is None:
                continue
            nodes.check_pointer(self, tree, node, level, generation, first)
            keys = [entry[0] for entry in node.entries]
            if keys and keys[0] <= last and not node.level:
                self.found("1.key-order", address, f"the first key {keys[0]} comes behind {last}")
            if node.level != level:
                continue
            if node.level:
                waiting.extend((child, level - 1, born, key) for key, child, born in reversed(node.entries))
            else:
                tree.items.extend(node.entries)
                last = max([last, *keys])

    def file_trees(self):
        """The trees that hold files: subvolumes, snapshots, and the one that a balance of data uses."""
        return [tree for number, tree in sorted(self.trees.items()) if nodes.may_hold_files(number)]

    def items(self, number):
        """The items of a tree, none where it isn't there."""
        return self.trees[number].items if number in self.trees else []
