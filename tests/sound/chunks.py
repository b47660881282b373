"""Parts 6, 7 and 9: block groups, chunks, device extents, and the device."""

from . import forms
from .forms import SECTOR, OffForm
from .places import STRIPE


def check_groups(recount, all_extents):
    """6.form: a block group has 24 bytes, and the object 256 of chunks (check_block_group_item of Linux's
    tree-checker).
    6.group: each chunk has a block group of its range and type, and there is no other (check_chunk_refs of btrfs check;
    check_chunk_block_group_mappings of Linux).
    6.used: a block group tells the bytes of the extents in it (btrfs check; "block group .. used" of Linux)."""
    volume, found = recount.volume, recount.found
    used = {chunk.logical: 0 for chunk in volume.chunks}
    for start, length, _ in all_extents:
        place = volume.place(start)
        if place:
            used[place[0].logical] += length
    chunks = {(chunk.logical, chunk.length): chunk for chunk in volume.chunks}
    there = set()
    for key, group in recount.groups:
        chunk = chunks.get((key.objectid, key.offset))
        there.add((key.objectid, key.offset))
        if chunk is None or group.flags != chunk.kind:
            found("6.group", key.objectid, f"there is no chunk of {key.offset} bytes and type {group.flags:#x}")
        elif group.used != used[key.objectid]:
            found("6.used", key.objectid, f"{group.used} bytes are told, and {used[key.objectid]} are used")
        if group.chunk_objectid != forms.FIRST_CHUNK:
            found("6.form", key.objectid, f"the block group names the object {group.chunk_objectid}")
    for logical, length in chunks.keys() - there:
        found("6.group", logical, f"the chunk of {length} bytes has no block group")


def check_chunk_fields(volume):
    """7.chunk: a chunk has sectors of 4096 bytes, stripes of 65536, a length that is a multiple of 4096 and not 0, and
    one stripe, or two in DUP (btrfs_check_chunk_valid of Linux's tree-checker).
    7.stripe: a stripe is on the volume's device, by number and uuid, and lies in its bytes (read_one_chunk,
    verify_one_dev_extent of Linux)."""
    device = forms.device(volume.super.device)
    for chunk in volume.chunks:
        copies = 2 if chunk.kind & forms.DUP else 1
        fields = (chunk.sector, chunk.stripe_length, len(chunk.stripes))
        aligned = not chunk.logical % SECTOR and not chunk.length % SECTOR and chunk.length
        if fields != (SECTOR, STRIPE, copies) or not aligned or chunk.logical + chunk.length > forms.MAX64:
            volume.found("7.chunk", chunk.logical, f"sectors, stripes and their number are {fields}, the length {chunk.length}")
        for stripe in chunk.stripes:
            if (stripe.devid, stripe.uuid) != (device.devid, device.uuid):
                volume.found("7.stripe", chunk.logical, f"a stripe is on device {stripe.devid} {stripe.uuid.hex()}")
            if stripe.offset + chunk.length > volume.super.total_bytes or stripe.offset % SECTOR:
                volume.found("7.stripe", chunk.logical, f"a stripe goes from {stripe.offset} to {stripe.offset + chunk.length}")


def check_overlaps(volume):
    """7.apart: chunks overlap neither by their addresses nor on the device (btrfs_add_chunk_map,
    check_dev_extent_item of Linux)."""
    spans = (
        ("by their addresses", [(chunk.logical, chunk.length) for chunk in volume.chunks]),
        ("on the device", [(stripe.offset, chunk.length) for chunk in volume.chunks for stripe in chunk.stripes]),
    )
    for where, ranges in spans:
        end = 0
        for start, length in sorted(ranges):
            if start < end:
                volume.found("7.apart", start, f"two chunks overlap {where}")
            end = start + length


def check_chunk_keys(volume):
    """7.key: the chunk tree has the device's item and chunks, these of the object 256 (read_one_chunk of Linux looks
    at no other)."""
    for key, _ in volume.items(forms.CHUNK_TREE):
        if key.kind not in (forms.CHUNK, forms.DEVICE) or key.kind == forms.CHUNK and key.objectid != forms.FIRST_CHUNK:
            volume.found("7.key", key.objectid, f"the chunk tree has an item of kind {key.kind}")


def check_device_extents(volume):
    """7.extent: the device extents are the stripes of the chunks, each with the chunk tree 3, the object 256, the
    chunk's address and its length (check_dev_extent_item of Linux's tree-checker, btrfs_verify_dev_extents;
    check_chunk_refs of btrfs check)."""
    stripes = {(stripe.devid, stripe.offset): (3, forms.FIRST_CHUNK, it.logical, it.length) for it in volume.chunks for stripe in it.stripes}
    there = set()
    for key, body in volume.items(forms.DEVICE_TREE):
        if key.kind != forms.DEVICE_EXTENT:
            continue
        there.add((key.objectid, key.offset))
        try:
            told = tuple(forms.device_extent(body))[:4]
        except OffForm as off:
            volume.found("7.extent", key.offset, f"the device extent {off}")
            continue
        if stripes.get((key.objectid, key.offset)) != told:
            volume.found("7.extent", key.offset, f"no stripe of device {key.objectid} is as the device extent tells: {told}")
    for devid, offset in stripes.keys() - there:
        volume.found("7.extent", offset, f"a stripe on device {devid} has no device extent")


def check_totals(recount):
    """9.used: the superblock tells the sum of what the block groups have used (btrfs check, "super bytes used
    mismatches").
    9.device: the chunk tree has one device item, (1, 216, devid), with the fields of the superblock's; its fsid is
    the volume's, its bytes are those of the volume, and its used bytes those of all stripes (check_dev_item,
    read_one_dev, btrfs_validate_super of Linux; check_device_used of btrfs check). The generation of the
    superblock's own is not kept by Linux, nor compared."""
    volume, found = recount.volume, recount.found
    head = volume.super
    used = sum(group.used for _, group in recount.groups)
    if head.bytes_used != used:
        found("9.used", forms.SUPER_AT, f"{head.bytes_used} bytes are told, and the block groups have {used}")
    items = [(key, body) for key, body in volume.items(forms.CHUNK_TREE) if key.kind == forms.DEVICE]
    own = forms.device(head.device)
    if len(items) != 1 or items[0][0] != (1, forms.DEVICE, own.devid) or items[0][1] != head.device:
        found("9.device", forms.SUPER_AT, f"there are {len(items)} device items, or it is not as in the superblock")
    stripes = sum(chunk.length * len(chunk.stripes) for chunk in volume.chunks)
    if own.fsid != head.fsid or (own.total_bytes, own.bytes_used) != (head.total_bytes, stripes):
        found("9.device", forms.SUPER_AT, f"the device has {own.total_bytes} bytes and {own.bytes_used} used, not {head.total_bytes} and {stripes}")


def check(recount, all_extents):
    volume = recount.volume
    check_groups(recount, all_extents)
    check_chunk_fields(volume)
    check_overlaps(volume)
    check_chunk_keys(volume)
    check_device_extents(volume)
    check_totals(recount)
