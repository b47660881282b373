"""Part 5: the checksums of data."""

from bisect import bisect_right

from . import forms
from .disk import WIDTH, sector_sums
from .forms import SECTOR

AT_ONCE = 2048
HEAD, ITEM = 101, 25


class Ranges:
    """Ranges of addresses, joined where they touch or overlap."""

    def __init__(self, ranges):
        self.starts, self.ends = [], []
        for start, end in sorted(ranges):
            if self.ends and start <= self.ends[-1]:
                self.ends[-1] = max(self.ends[-1], end)
            elif start < end:
                self.starts.append(start)
                self.ends.append(end)

    def pairs(self):
        return zip(self.starts, self.ends)

    def missing(self, start, end):
        """The first address of a range that is in none, or nothing."""
        i = bisect_right(self.starts, start) - 1
        if i < 0 or self.ends[i] <= start:
            return start
        return None if self.ends[i] >= end else self.ends[i]

    def meets(self, start, end):
        """Whether any address of a range is in one."""
        i = bisect_right(self.starts, start) - 1
        return i >= 0 and self.ends[i] > start or i + 1 < len(self.starts) and self.starts[i + 1] < end


def items(volume):
    """5.form: an item of the checksum tree is of the kind 128 of its one object, begins at a multiple of 4096, and has
    whole checksums, at least one and no more than Linux puts into one (check_csum_item of Linux's tree-checker; "csum
    too large" of btrfs check).
    5.once: no block has two checksums ("csum overlap" of btrfs check)."""
    width = WIDTH[volume.super.sum_type]
    most = (volume.super.nodesize - HEAD - 2 * ITEM) // width - 1
    good, end = [], 0
    for key, body in volume.items(forms.SUM_TREE):
        count = len(body) // width
        right = key.objectid == forms.SUM_OBJECT and key.kind == forms.SUMS and not key.offset % SECTOR and not len(body) % width
        if not right or not 1 <= count <= most:
            volume.found("5.form", key.offset, f"an item of kind {key.kind} of object {key.objectid} has {len(body)} bytes")
            continue
        if key.offset < end:
            volume.found("5.once", key.offset, f"the checksums before go to {end}")
        end = key.offset + SECTOR * count
        good.append((key.offset, body))
    return good


def part_read(extent):
    """The bytes of the disk that are read for a file extent: of a compressed one all."""
    if extent.compression:
        return extent.disk, extent.disk + extent.disk_length
    return extent.disk + extent.offset, extent.disk + extent.offset + extent.length


def check_cover(volume, trees, covered, data):
    """5.missing: what a file extent refers to, not preallocated and of an inode without the flag nodatasum, has
    checksums, of a compressed extent all of it (I_ERR_SOME_CSUM_MISSING of btrfs check). The tree that a balance of
    data uses is left out, as btrfs check does.
    5.odd: what an inode with nodatasum refers to has none; what a preallocated extent refers to neither, unless a
    written one refers to the same disk extent (I_ERR_ODD_CSUM_ITEM of btrfs check).
    5.outside: what has checksums lies in data extents ("csum exists .. but there is no extent record" of btrfs
    check)."""
    written = {extent.disk for files in trees for it in files.extents.values() for _, extent in it if extent.kind == forms.REGULAR}
    for files in trees:
        if files.number == forms.DATA_RELOCATION_TREE:
            continue
        for number, extents in files.extents.items():
            inode = files.inodes.get(number)
            for _, extent in filter(lambda it: forms.has_place(it[1]), extents):
                start, end = part_read(extent)
                if extent.kind == forms.PREALLOCATED:
                    if extent.disk not in written and covered.meets(start, end):
                        files.found("5.odd", start, "what is preallocated has a checksum")
                elif inode and inode.flags & forms.NODATASUM:
                    if covered.meets(start, end):
                        files.found("5.odd", start, f"the data of inode {number} has a checksum, and the flag nodatasum")
                elif covered.missing(start, end) is not None:
                    files.found("5.missing", covered.missing(start, end), f"the data of inode {number} has no checksum here")
    for start, end in covered.pairs():
        at = data.missing(start, end)
        if at is not None:
            volume.found("5.outside", at, "what has a checksum is no data")


def check_sums(volume, found):
    """5.sum: each checksum is that of its block (btrfs check --check-data-csum; each read of Linux)."""
    width = WIDTH[volume.super.sum_type]
    waiting, data = [], bytearray()
    for start, body in found:
        for i in range(0, len(body), width):
            at = start + SECTOR * (i // width)
            block = volume.bytes_at(at, SECTOR)
            if block is not None:
                waiting.append((at, body[i : i + width]))
                data += block
            if len(waiting) == AT_ONCE:
                compare(volume, waiting, bytes(data))
                waiting, data = [], bytearray()
    compare(volume, waiting, bytes(data))


def compare(volume, waiting, data):
    """Compares the checksums of some blocks with those that are told."""
    for (at, told), right in zip(waiting, sector_sums(volume.super.sum_type, data)):
        if told != right:
            volume.found("5.sum", at, "the checksum of the block is wrong")


def check(recount, trees):
    volume = recount.volume
    found = items(volume)
    width = WIDTH[volume.super.sum_type]
    covered = Ranges((start, start + SECTOR * (len(body) // width)) for start, body in found)
    data = Ranges((start, start + length) for start, length in recount.data)
    check_cover(volume, trees, covered, data)
    check_sums(volume, found)
