"""Where the metadata of a ReiserFS volume lies, and its leaves as lists of items."""

import struct

BLOCK = 4096
SUPER = 16 * BLOCK
NODE_HEAD = [(0, 2), (2, 2), (4, 2), (6, 2)]
KEY = [(0, 4), (4, 4), (8, 4), (12, 4), (8, 8)]
POINTER = [(0, 4), (4, 2), (6, 2)]
ITEM_HEAD = KEY + [(16, 2), (18, 2), (20, 2), (22, 2)]
STAT = [(0, 2), (2, 2), (4, 4), (8, 8), (16, 4), (20, 4), (24, 4), (28, 4), (32, 4), (36, 4), (40, 4)]
OLD_STAT = [(0, 2), (2, 2), (4, 2), (6, 2), (8, 4), (12, 4), (16, 4), (20, 4), (24, 4), (28, 4)]
ENTRY_HEAD = [(0, 4), (4, 4), (8, 4), (12, 2), (14, 2)]
SUPER_FIELDS = [
    *((at, 4) for at in range(0, 44, 4)),
    *((at, 2) for at in (44, 46, 48, 50)),
    *((52, 8), (60, 2), (62, 2), (64, 4), (68, 2), (70, 2), (72, 2), (74, 2), (76, 4), (80, 4)),
]
HEAD, STATS, INDIRECT, DIRECT, DIRECTORY = 24, 0, 1, 2, 3
OLD_KINDS = {0: STATS, 0xFFFFFFFE: INDIRECT, 0xFFFFFFFF: DIRECT, 500: DIRECTORY}


def kind_of(head):
    """What an item is by its head, None where it is nothing."""
    version = struct.unpack_from("<H", head, 22)[0]
    return head[15] >> 4 if version else OLD_KINDS.get(struct.unpack_from("<I", head, 12)[0])


def items_of(node):
    """The items of a leaf as pairs of a head and a body."""
    count = struct.unpack_from("<H", node, 2)[0]
    heads = [bytes(node[HEAD + 24 * i : HEAD + 24 * i + 24]) for i in range(min(count, 160))]
    items = []
    for head in heads:
        length, place = struct.unpack_from("<HH", head, 18)
        items.append((head, bytes(node[place : place + length])))
    return items


def leaf_of(node, items):
    """A leaf of these items, behind the node's own head; the items that do not fit are left out."""
    made, end, heads = bytearray(BLOCK), BLOCK, b""
    count = 0
    for head, body in items:
        if HEAD + len(heads) + 24 + len(body) > end:
            break
        end -= len(body)
        made[end : end + len(body)] = body
        heads += head[:18] + struct.pack("<HH", len(body), end) + head[22:]
        count += 1
    made[:HEAD] = node[:HEAD]
    struct.pack_into("<HH", made, 2, count, end - HEAD - len(heads))
    made[HEAD : HEAD + len(heads)] = heads
    return bytes(made)


def add_body(base, kind, at, head, body):
    """The spans of an item's body."""
    if kind == STATS:
        old = len(body) == 32
        base.span("old stat data" if old else "stat data", at, len(body), OLD_STAT if old else STAT)
    elif kind == INDIRECT:
        for i in range(0, len(body) - 3, 4):
            base.span("block pointer", at + i, 4, [(0, 4)])
    elif kind == DIRECTORY:
        end = len(body)
        for i in range(struct.unpack_from("<H", head, 16)[0]):
            base.span("entry head", at + 16 * i, 16, ENTRY_HEAD)
            place = struct.unpack_from("<H", body, 16 * i + 12)[0]
            base.span("name", at + place, end - place)
            end = place
    elif kind == DIRECT:
        base.span("direct bytes", at, len(body))


def add_leaf(base, at):
    for i, (head, body) in enumerate(items_of(base.read(at, BLOCK))):
        base.span("item head", at + HEAD + 24 * i, 24, ITEM_HEAD)
        add_body(base, kind_of(head), at + struct.unpack_from("<H", head, 20)[0], head, body)


def add_inner(base, at, level):
    """The spans of an inner node, and of the nodes below it."""
    node = base.read(at, BLOCK)
    keys = struct.unpack_from("<H", node, 2)[0]
    for i in range(keys):
        base.span("key", at + HEAD + 16 * i, 16, KEY)
    for i in range(keys + 1):
        place = HEAD + 16 * keys + 8 * i
        base.span("child pointer", at + place, 8, POINTER)
        add_node(base, struct.unpack_from("<I", node, place)[0] * BLOCK, level - 1)


def add_node(base, at, level):
    base.nodes.append(at)
    base.span("node", at, BLOCK)
    base.span("node head", at, HEAD, NODE_HEAD)
    if level == 1:
        base.leaves.append(at)
        add_leaf(base, at)
    else:
        add_inner(base, at, level)


def find_spans(base):
    """Fills in the groups of a ReiserFS volume."""
    words = struct.unpack("<6I", base.read(SUPER, 24))
    blocks, root, journal, length = words[0], words[2], words[3], words[5]
    base.blocks, base.journal, base.log = blocks, journal * BLOCK, length
    base.span("superblock", SUPER, 104, SUPER_FIELDS)
    for bitmap in range((blocks - 1) // 32768 + 1):
        at = (bitmap * 32768 or 17) * BLOCK
        used = min(blocks - bitmap * 32768, 32768) // 8
        for i in range(0, used, 8):
            base.span("bitmap", at + i, 8, [(0, 8), (0, 4), (0, 1), (7, 1)])
    base.span("journal's header", (journal + length) * BLOCK, 12, [(0, 4), (4, 4), (8, 4)])
    add_node(base, root * BLOCK, struct.unpack("<H", base.read(SUPER + 68, 2))[0] - 1)
    base.node_size, base.seal = BLOCK, lambda draft, wrong: None
    base.items_of, base.leaf_of = items_of, leaf_of
    base.numbers = [*range(20), 32, 44, 255, 256, 3900, 4095, 4096, 4097, blocks - 1, blocks, blocks + 1, root, journal, journal + length]


def plant_transaction(draft, rng):
    """Writes a descriptor into the journal, mostly with a commit block and a header that make a whole transaction of it."""
    base = draft.base
    at, length, number = rng.randrange(base.log), rng.choice((0, 1, 2, 5, base.log - 1, base.log, 0xFFFFFFFF)), rng.randrange(1, 9)
    words = struct.pack("<III", number, length, 7)
    draft.write(base.journal + at * BLOCK, words)
    draft.write(base.journal + at * BLOCK + 4084, b"ReIsErLB")
    if rng.random() < 0.7:
        draft.write(base.journal + (at + length + 1) % base.log * BLOCK, words)
    if rng.random() < 0.7:
        draft.write(base.journal + base.log * BLOCK, struct.pack("<III", rng.choice((0, number - 1, number)), at, 7))
    draft.tell(f"transaction {number} of {length} blocks at {at} of the journal")
