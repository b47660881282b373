"""Parts 4 and 8: where extents lie, by their addresses and on the device."""

from . import forms

STRIPE = 65536
MIB = 1 << 20


def reserved(total):
    """The ranges of the device that hold nothing: the first MiB, the 64 KiB of each further place of a superblock,
    and what is left behind the last multiple of 64 KiB of the volume."""
    return ((0, MIB), (64 * MIB, 64 * MIB + STRIPE), (1 << 38, (1 << 38) + STRIPE), (total // STRIPE * STRIPE, total))


def extents(recount):
    """All extents, as start, length and kind of chunk; sorted."""
    volume = recount.volume
    in_chunk_tree = set(volume.trees[forms.CHUNK_TREE].nodes)
    for start in recount.nodes:
        yield start, volume.super.nodesize, forms.SYSTEM if start in in_chunk_tree else forms.META
    for start, length in recount.data:
        yield start, length, forms.DATA


def check_apart(recount, all_extents):
    """4.apart: no two extents overlap ("extent item has multiple extent items", check_extent_item of Linux's
    tree-checker).
    4.node-twice: no tree has a node twice."""
    end = 0
    for start, length, _ in all_extents:
        if start < end:
            recount.found("4.apart", start, "an extent begins in another")
        end = max(end, start + length)
    for tree in recount.volume.trees.values():
        if len(set(tree.nodes)) != len(tree.nodes):
            recount.found("4.node-twice", tree.number, "the tree has a node twice")


def check_chunks(recount, all_extents):
    """4.chunk: each extent lies in one chunk of its kind: the nodes of the chunk tree in a system chunk, other nodes in
    one of metadata, data in one of data ("type mismatch with chunk" of btrfs check).
    4.stripe: no node goes over a multiple of 64 KiB ("crossing stripe boundary" of btrfs check).
    8.reserved: no block of an extent's stripes is reserved (exclude_super_stripes of Linux)."""
    volume = recount.volume
    ranges = reserved(volume.super.total_bytes)
    for start, length, kind in all_extents:
        place = volume.place(start)
        if place is None or place[0].kind & ~forms.DUP != kind or start + length > place[0].logical + place[0].length:
            recount.found("4.chunk", start, f"{length} bytes of kind {kind} do not lie in one chunk of this kind")
            continue
        if kind != forms.DATA and start // STRIPE != (start + length - 1) // STRIPE:
            recount.found("4.stripe", start, "a node goes over a multiple of 64 KiB")
        for stripe in place[0].stripes:
            low = stripe.offset + start - place[0].logical
            if any(low < end and begin < low + length for begin, end in ranges):
                recount.found("8.reserved", start, f"the extent has a reserved block, from byte {low} of the device on")


def check(recount):
    all_extents = sorted(extents(recount))
    check_apart(recount, all_extents)
    check_chunks(recount, all_extents)
    return all_extents
