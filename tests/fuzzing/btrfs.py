"""Where the metadata of a Btrfs volume lies, its leaves as lists of items, and its checksums made right again."""

import struct
import sys
from pathlib import Path

sys.path.insert(0, str(Path(__file__).resolve().parent.parent))
from crc32c import crc32c  # noqa: E402

SUPER, SUPER_SIZE, HEAD = 65536, 4096, 101
KEY = [(0, 8), (8, 1), (9, 8)]
NODE_HEAD = [(32, 8), (48, 8), (56, 8), (64, 8), (80, 8), (88, 8), (96, 4), (100, 1)]
ITEM = KEY + [(17, 4), (21, 4)]
CHILD = KEY + [(17, 8), (25, 8)]
SUPER_FIELDS = [
    *((at, 8) for at in range(32, 144, 8)),
    *((at, 4) for at in range(144, 164, 4)),
    *((at, 8) for at in (164, 172, 180, 188)),
    *((196, 2), (198, 1), (199, 1), (200, 1), (201, 8), (209, 8), (217, 8), (299, 8), (555, 8), (563, 8)),
]
CHUNK = [*((at, 8) for at in (0, 8, 16, 24)), (32, 4), (36, 4), (40, 4), (44, 2), (46, 2), (48, 8), (56, 8), (64, 8)]
INODE = [
    *((at, 8) for at in range(0, 40, 8)),
    *((40, 4), (44, 4), (48, 4), (52, 4), (56, 8), (64, 8), (72, 8)),
    *((at, width) for at, width in ((112, 8), (120, 4), (124, 8), (132, 4), (136, 8), (144, 4), (148, 8), (156, 4))),
]
ROOT = [(at, 8) for at in range(160, 216, 8)] + [(216, 4), (220, 8), (228, 1), (229, 8), (237, 1), (238, 1), (239, 8)]
EXTENT = [(0, 8), (8, 8), (16, 1), (17, 1), (18, 2), (20, 1), (21, 8), (29, 8), (37, 8), (45, 8)]
ENTRY = KEY + [(17, 8), (25, 2), (27, 2), (29, 1)]
BODIES = {
    1: ("inode", INODE),
    12: ("inode reference", [(0, 8), (8, 2)]),
    13: ("extended reference", [(0, 8), (8, 8), (16, 2)]),
    84: ("entry by hash", ENTRY),
    96: ("entry by index", ENTRY),
    108: ("file extent", EXTENT),
    132: ("root item", ROOT),
    144: ("root reference", [(0, 8), (8, 8), (16, 2)]),
    156: ("root reference", [(0, 8), (8, 8), (16, 2)]),
    228: ("chunk", CHUNK),
}


def key_of(data, at=0):
    return struct.unpack_from("<QBQ", data, at)


def items_of(node):
    """The items of a leaf as pairs of a head and a body."""
    items = []
    for i in range(min(struct.unpack_from("<I", node, 96)[0], (len(node) - HEAD) // 25)):
        head = bytes(node[HEAD + 25 * i : HEAD + 25 * i + 25])
        place, length = struct.unpack_from("<II", head, 17)
        items.append((head, bytes(node[HEAD + place : HEAD + place + length])))
    return items


def leaf_of(node, items):
    """A leaf of these items, behind the node's own head; the items that do not fit are left out."""
    made, end, heads, count = bytearray(len(node)), len(node), b"", 0
    for head, body in items:
        if HEAD + len(heads) + 25 + len(body) > end:
            break
        end -= len(body)
        made[end : end + len(body)] = body
        heads += head[:17] + struct.pack("<II", end - HEAD, len(body))
        count += 1
    made[:HEAD] = node[:HEAD]
    struct.pack_into("<I", made, 96, count)
    made[HEAD : HEAD + len(heads)] = heads
    return bytes(made)


class Finder:
    """Follows the trees of a volume from its superblock on."""

    def __init__(self, base):
        self.base, self.chunks = base, []
        block = base.read(SUPER, SUPER_SIZE)
        root, chunk_root = struct.unpack_from("<QQ", block, 80)
        self.size = base.node_size = struct.unpack_from("<I", block, 148)[0]
        at, end = 811, 811 + struct.unpack_from("<I", block, 160)[0]
        base.span("superblock", SUPER, 571, SUPER_FIELDS)
        base.span("chunks of the superblock", SUPER + 811, end - 811, KEY + [(17 + o, w) for o, w in CHUNK])
        while at < end:
            self.add_chunk(key_of(block, at), block[at + 17 : end])
            at += 17 + 48 + 32 * struct.unpack_from("<H", block, at + 17 + 44)[0]
        self.tree(chunk_root)
        self.tree(root)

    def add_chunk(self, key, body):
        self.chunks.append((key[2], *struct.unpack_from("<Q", body, 0), *struct.unpack_from("<Q", body, 56)))

    def place(self, address):
        """Where an address lies on the device."""
        for first, length, place in self.chunks:
            if first <= address < first + length:
                return place + address - first
        raise ValueError(f"address {address} lies in no chunk")

    def tree(self, address):
        """The spans of a node and of those below it, and of the trees that its root items name."""
        at = self.place(address)
        if at in self.base.nodes:
            return
        node = self.base.read(at, self.size)
        self.base.nodes.append(at)
        self.base.span("node", at, self.size)
        self.base.span("node's contents", at + 96, self.size - 96)
        self.base.span("node head", at, HEAD, NODE_HEAD)
        if node[100]:
            for i in range(struct.unpack_from("<I", node, 96)[0]):
                self.base.span("child", at + HEAD + 33 * i, 33, CHILD)
                self.tree(struct.unpack_from("<Q", node, HEAD + 33 * i + 17)[0])
        else:
            self.base.leaves.append(at)
            self.leaf(at, node)

    def leaf(self, at, node):
        for i, (head, body) in enumerate(items_of(node)):
            self.base.span("item head", at + HEAD + 25 * i, 25, ITEM)
            key = key_of(head)
            name, fields = BODIES.get(key[1], ("other body", []))
            self.base.span(name, at + HEAD + struct.unpack_from("<I", head, 17)[0], len(body), fields)
            if key[1] == 228:
                self.add_chunk(key, body)
            if key[1] == 132 and len(body) >= 239:
                self.tree(struct.unpack_from("<Q", body, 176)[0])


def with_sum(data):
    """A node or a superblock with its checksum."""
    return struct.pack("<I", crc32c(data[32:])) + bytes(28) + data[32:]


def seal(draft, wrong):
    """Makes the checksums of the changed nodes and of the superblock right again, but for one where `wrong` says so."""
    base = draft.base
    places = [(at, base.node_size) for at in base.nodes] + [(SUPER, SUPER_SIZE)]
    changed = [(at, size) for at, size in places if any(number in draft.changed for number in range(at // 4096, (at + size) // 4096))]
    if wrong and changed:
        at, _ = changed.pop()
        draft.tell(f"the checksum at {at} is left as it was")
    for at, size in changed:
        draft.write(at, with_sum(draft.read(at, size)))


def find_spans(base):
    """Fills in the groups of a Btrfs volume."""
    Finder(base)
    base.seal, base.items_of, base.leaf_of = seal, items_of, leaf_of
    base.blocks = base.size // 4096
    super_numbers = struct.unpack_from("<3Q", base.read(SUPER, 200), 72)
    base.numbers = [*range(20), 84, 96, 108, 132, 256, 257, 65536, base.node_size, 1 << 20, *super_numbers, base.size, base.size - 4096]


def make_steady(base, begun, ended):
    """Gives a volume that was converted between two moments the same identifiers and times as every other, so that seeds mean
    the same in each run."""
    block = base.read(SUPER, SUPER_SIZE)
    node = base.read(base.nodes[0], HEAD)
    roots = [base.read(at + 247, 16) for at, _ in base.groups["root item"].spans]
    uuids = [block[32:48], node[64:80], block[267:283], *(uuid for uuid in roots if any(uuid))]
    changes = [(uuid, bytes([0x40 + i]) * 16) for i, uuid in enumerate(uuids)]
    changes += [(struct.pack("<Q", moment), struct.pack("<Q", 1700000000)) for moment in range(begun, ended + 1)]
    for at, size in [(at, base.node_size) for at in base.nodes] + [(SUPER, SUPER_SIZE)]:
        data = base.read(at, size)
        for old, new in changes:
            data = data.replace(old, new)
        data = with_sum(data)
        for i in range(0, size, 4096):
            base.pages[(at + i) // 4096] = data[i : i + 4096]
    base.whole()
