"""Part 10: the free space tree, where the superblock says that there is one."""

from . import forms
from .forms import SECTOR, OffForm
from .volume import FREE_SPACE_TREE, FREE_SPACE_VALID

BITMAP = 1


class Told:
    """What the tree tells of one block group."""

    def __init__(self, start, length, count, flags):
        if flags not in (0, BITMAP):
            raise OffForm(f"has the flags {flags}")
        self.start, self.end, self.count, self.flags = start, start + length, count, flags
        self.items, self.runs, self.next = 0, [], start

    def add(self, start, end):
        """A run of free blocks, as one with the run before if that ends here."""
        if self.runs and self.runs[-1][1] == start:
            self.runs[-1] = (self.runs[-1][0], end)
        else:
            self.runs.append((start, end))

    def has(self, key):
        """The range of an item is not empty, and lies in the block group."""
        return self.start <= key.objectid and key.objectid + key.offset <= self.end and key.offset

    def is_run(self, key, body):
        """A run, which does not go on where the one before ends."""
        apart = not self.runs or self.runs[-1][1] != key.objectid
        return key.kind == forms.FREE_EXTENT and self.flags == 0 and not body and apart

    def is_bitmap(self, key, body):
        """A bitmap of whole blocks, which follows the one before."""
        whole = key.offset % SECTOR == 0 and len(body) == -(-key.offset // (8 * SECTOR))
        return key.kind == forms.FREE_BITMAP and self.flags == BITMAP and whole and key.objectid == self.next


def meets(chunks, key):
    """The range of an item begins in a block group, or reaches into one."""
    return any(key.objectid < start + length and start < key.objectid + max(key.offset, 1) for start, length in chunks)


def check_ranges(volume, chunks):
    """10.range: each item begins in the range of a block group's item, and before the last block group ends (btrfs
    check: "Failed to find a space info key", "We have a space info key for a block group that doesn't exist")."""
    reach, last = 0, max(start + length for start, length in chunks)
    for key, _ in volume.items(forms.FREE_TREE):
        if key.kind == forms.FREE_INFO:
            reach = max(reach, key.objectid + key.offset)
        if key.objectid >= min(reach, last):
            volume.found("10.range", key.objectid, f"an item of kind {key.kind} is in no range that is told")


def read(volume, chunks):
    """10.form: the tree has for each block group an item of its count and flags, and up to the next such item runs or
    bitmaps, which lie in it (load_free_space_tree of Linux and of btrfs check). Runs are not side by side. Bitmaps
    cover the block group: where there was a gap, Linux would take a run that ends before it to go on behind it."""
    groups, last = {}, None
    for key, body in volume.items(forms.FREE_TREE):
        stray = not meets(chunks, key)
        if stray and key.kind == forms.FREE_INFO:
            last = None
        if stray and not last:
            continue
        try:
            if key.kind == forms.FREE_INFO:
                last = Told(key.objectid, key.offset, *forms.whole("<II", body))
                groups[last.start, last.end - last.start] = last
            elif not last or not last.has(key):
                raise OffForm("is not in the block group before it")
            elif last.is_run(key, body):
                last.items += 1
                last.add(key.objectid, key.objectid + key.offset)
            elif last.is_bitmap(key, body):
                add_bitmap(last, key, body)
            else:
                raise OffForm(f"has {len(body)} bytes, where the flags are {last.flags}, or is not where it should be")
        except OffForm as off:
            volume.found("10.form", key.objectid, f"the item of kind {key.kind} {off}")
    for told in groups.values():
        if told.flags == BITMAP and told.next != told.end:
            volume.found("10.form", told.start, f"the bitmaps end at {told.next}")
    return groups


def add_bitmap(told, key, body):
    """The runs of a bitmap: bit i, low first, is that of block i."""
    bits = int.from_bytes(body, "little")
    for i in range(key.offset // SECTOR):
        if bits >> i & 1:
            told.add(key.objectid + SECTOR * i, key.objectid + SECTOR * (i + 1))
    told.items, told.next = len(told.runs), key.objectid + key.offset


def free_runs(start, length, all_extents):
    """The runs of a block group in which no extent lies."""
    at, runs = start, []
    for begin, size, _ in all_extents:
        if start <= begin < start + length:
            if begin > at:
                runs.append((at, begin))
            at = begin + size
    if at < start + length:
        runs.append((at, start + length))
    return runs


def check(recount, all_extents):
    """10.valid: where the superblock has the bit of the free space tree, it has that of its validity (Linux makes the
    tree anew otherwise, as it is mounted for writing: "free space tree is invalid").
    10.tree: with both bits, tree 10 is there.
    10.groups: it tells of each block group, and of no other range that meets one. What it tells of other ranges is let
    be: mkfs.btrfs up to 6.2 and later leaves that of a first chunk that it removes, and Linux reads it only where there
    is a block group.
    10.free: the blocks that it tells are those of the block group in which no extent lies (verify_space_cache of btrfs
    check).
    10.count: a block group's count is the number of its runs (load_free_space_extents, load_free_space_bitmaps of
    Linux)."""
    volume = recount.volume
    if not volume.super.compat_ro & FREE_SPACE_TREE:
        return
    if not volume.super.compat_ro & FREE_SPACE_VALID:
        volume.found("10.valid", forms.SUPER_AT, "the free space tree is not valid")
        return
    if forms.FREE_TREE not in volume.trees:
        volume.found("10.tree", forms.SUPER_AT, "there is no free space tree")
        return
    chunks = {(chunk.logical, chunk.length) for chunk in volume.chunks}
    check_ranges(volume, chunks)
    told = read(volume, chunks)
    for start, length in chunks - told.keys():
        volume.found("10.groups", start, f"the block group of {length} bytes is not told")
    for start, length in told.keys() - chunks:
        volume.found("10.groups", start, f"{length} bytes are told that are no block group")
    for start, length in chunks & told.keys():
        group = told[start, length]
        if group.runs != free_runs(start, length, all_extents):
            volume.found("10.free", start, "the free blocks are not those that are told")
        if group.count != group.items:
            volume.found("10.count", start, f"{group.count} runs are told, and {group.items} are there")
