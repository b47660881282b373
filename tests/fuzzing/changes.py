"""The changes that a seed makes to a volume's metadata: bytes, fields at their limits, pieces that are swapped or copied, and items of
a leaf that are taken out, put in twice, cut and lengthened."""

import struct

from reiser import plant_transaction

# Groups that are drawn less often, and more often.
WEIGHTS = {"other body": 0.4, "bitmap": 0.5, "node": 0.5, "name": 0.6, "direct bytes": 0.3, "node's contents": 0.3, "superblock": 1.3}


def draw_group(base, rng):
    names = list(base.groups)
    name = rng.choices(names, [WEIGHTS.get(name, 1) for name in names])[0]
    return name, base.groups[name]


def draw_span(base, rng):
    name, group = draw_group(base, rng)
    return name, group, *rng.choice(group.spans)


def change_bytes(draft, rng):
    """A few bytes of a span, or one bit."""
    name, _, at, length = draw_span(draft.base, rng)
    for _ in range(rng.choice((1, 1, 1, 2, 3, 8))):
        place = at + rng.randrange(max(length, 1))
        old = draft.read(place, 1)[0]
        new = rng.choice((old ^ 1 << rng.randrange(8), rng.randrange(256), 0, 255))
        draft.write(place, bytes([new]))
        draft.tell(f"byte {place} of a {name} from {old} to {new}")


def limits_of(draft, rng, group, old, width):
    """A value at a limit of a field, near the old one, or out of another span."""
    bits = 8 * width
    top = (1 << bits) - 1
    at, length = rng.choice(group.spans)
    other = rng.choice(group.fields_of(length) or [(0, 1)])
    taken = int.from_bytes(draft.read(at + other[0], other[1]), "little")
    values = [
        rng.choice((0, 1, top, top - 1, top >> 1, (top >> 1) + 1, 1 << rng.randrange(bits))),
        old + rng.choice((-1, 1, -8, 8, -4096, 4096)),
        old ^ 1 << rng.randrange(bits),
        rng.choice(draft.base.numbers),
        rng.randrange(1 << bits),
        taken,
    ]
    return rng.choice(values) & top


def change_field(draft, rng):
    """A field of a span."""
    name, group, at, length = draw_span(draft.base, rng)
    fields = group.fields_of(length)
    if not fields:
        return
    offset, width = rng.choice(fields)
    old = int.from_bytes(draft.read(at + offset, width), "little")
    new = limits_of(draft, rng, group, old, width)
    draft.write(at + offset, new.to_bytes(width, "little"))
    draft.tell(f"field {offset} of {width} bytes of a {name} at {at} from {old} to {new}")


def swap_spans(draft, rng):
    """Two spans of one form change places, or one is copied over the other; nodes keep their head then, where the dice say so."""
    name, group, at, length = draw_span(draft.base, rng)
    near = [span for span in group.spans if abs(span[0] - at) < 4096]
    other, room = rng.choice(near if rng.random() < 0.5 else group.spans)
    size = min(length, room)
    one, two = draft.read(at, size), draft.read(other, size)
    draft.write(at, two)
    if rng.random() < 0.6:
        draft.write(other, one)
        draft.tell(f"{name} at {at} and at {other} change places")
    else:
        draft.tell(f"{name} at {at} is that at {other}")


def swap_pieces(draft, rng):
    """Two pieces of one node, of one length, change places."""
    base = draft.base
    node, length = rng.choice(base.nodes), rng.choice((1, 2, 4, 8, 16, 24, 25, 44, 100, 160))
    one, two = (node + rng.randrange(base.node_size - length) for _ in range(2))
    first, second = draft.read(one, length), draft.read(two, length)
    draft.write(one, second)
    draft.write(two, first)
    draft.tell(f"{length} bytes at {one} and at {two} change places")


def fill_span(draft, rng):
    """A span of zeros, or of ones."""
    name, _, at, length = draw_span(draft.base, rng)
    byte = rng.choice((b"\0", b"\xff"))
    draft.write(at, byte * length)
    draft.tell(f"{name} at {at} is filled with {byte[0]}")


def changed_body(body, rng):
    """A body that is shorter or longer."""
    size = rng.choice((0, 1, len(body) - 1, len(body) + 1, len(body) + 8, len(body) - 8, len(body) * 2, rng.randrange(4100)))
    return body[: max(size, 0)] + bytes(rng.choice((0, 1, 255)) for _ in range(max(size - len(body), 0)))


def change_items(draft, rng):
    """A leaf that is put together anew of its items, one of which is otherwise."""
    base = draft.base
    at = rng.choice(base.leaves)
    node = draft.read(at, base.node_size)
    items = base.items_of(node)
    if not items:
        return
    i, j = rng.randrange(len(items)), rng.randrange(len(items))
    how = rng.choice(("out", "twice", "body", "bodies", "order", "next", "from", "many"))
    if how == "out":
        del items[i]
    elif how == "twice":
        items.insert(i, items[i])
    elif how == "body":
        items[i] = (items[i][0], changed_body(items[i][1], rng))
    elif how == "bodies":
        items[i], items[j] = (items[i][0], items[j][1]), (items[j][0], items[i][1])
    elif how == "order":
        items[i], items[j] = items[j], items[i]
    elif how == "next":
        head = bytearray(items[i][0])
        place = rng.choice((0, 4, 8))
        struct.pack_into("<I", head, place, struct.unpack_from("<I", head, place)[0] + 1 & 0xFFFFFFFF)
        items.insert(i + 1, (bytes(head), items[i][1]))
    elif how == "from":
        items[i] = rng.choice(base.items_of(draft.read(rng.choice(base.leaves), base.node_size)) or items)
    else:
        del items[min(i, j) : max(i, j)]
    draft.write(at, base.leaf_of(node, items))
    draft.tell(f"leaf at {at} put together anew: {how}, items {i} and {j} of {len(items)}")


def cut_file(draft, rng):
    """The file ends earlier."""
    draft.size = rng.choice((draft.size - 4096, draft.size - 1, 69632, 65536, 65537, 4096 * rng.randrange(draft.base.size // 4096)))
    draft.tell(f"the file has {draft.size} bytes")


KINDS = [(change_bytes, 20), (change_field, 42), (swap_spans, 14), (swap_pieces, 4), (fill_span, 3), (change_items, 16), (cut_file, 0.4)]


def change(draft, rng):
    """The changes of one seed: mostly one, at times some, seldom many."""
    count = rng.choices((1, 2, 3, rng.randrange(4, 20)), (60, 18, 10, 12))[0]
    kinds, weights = zip(*KINDS)
    for _ in range(count):
        if draft.base.log and rng.random() < 0.02:
            plant_transaction(draft, rng)
        else:
            rng.choices(kinds, weights)[0](draft, rng)
    draft.base.seal(draft, rng.random() < 0.05)
