"""Part 2, on the parts of files: file extents."""

import stat

from . import forms
from .forms import INLINE, PREALLOCATED, SECTOR
from .volume import NO_HOLES

MAX_COMPRESSED = 128 * 1024
ZLIB, ZSTD = 1, 3


def rounded(length):
    return -(-length // SECTOR) * SECTOR


def counted(extent):
    """The bytes that an extent adds to the count of its inode: those of data that has a place, or is inline."""
    if extent.kind == INLINE:
        return extent.ram
    return extent.length if extent.disk else 0


def covers(extent):
    """How many bytes of the file an extent stands for."""
    return rounded(extent.ram) if extent.kind == INLINE else extent.length


def check_owners(files):
    """2.extent-owner: only a regular file or a symlink has file extents (I_ERR_ODD_FILE_EXTENT of btrfs check)."""
    for number in files.extents:
        inode = files.inodes.get(number)
        if inode and not stat.S_ISREG(inode.mode) and not stat.S_ISLNK(inode.mode):
            files.found("2.extent-owner", number, "an inode that is no file has a file extent")


def check_order(files):
    """2.extent-order: the extents of a file begin on multiples of 4096 and do not overlap (check_extent_data_item of
    Linux's tree-checker; I_ERR_FILE_EXTENT_OVERLAP of btrfs check)."""
    for number, extents in files.extents.items():
        end = 0
        for place, extent in extents:
            if place % SECTOR or place < end:
                files.found("2.extent-order", number, f"an extent begins at {place}, and the one before ends at {end}")
            end = place + covers(extent)
            if end > forms.MAX64:
                files.found("2.extent-order", number, f"the extent at {place} ends at {end}")


def check_inline(files, number, place, extent):
    """2.inline: an inline extent begins the file, has 1 to 4095 bytes, and tells their number; a compressed one
    stands for 4096 at most (check_extent_data_item of Linux's tree-checker; I_ERR_FILE_EXTENT_TOO_LARGE,
    I_ERR_INLINE_RAM_BYTES_WRONG of btrfs check)."""
    stored = len(extent.data)
    wrong = place or not extent.ram or stored >= SECTOR
    wrong = wrong or (extent.ram > SECTOR if extent.compression else extent.ram != stored)
    if wrong:
        files.found("2.inline", number, f"an inline extent at {place} has {stored} bytes and tells {extent.ram}")


def check_range(files, number, place, extent):
    """2.extent-range: an extent has bytes; all its numbers are multiples of 4096; its part of the disk extent lies
    in that, as it is in memory; a hole has no bytes on the disk (check_extent_data_item of Linux's tree-checker;
    I_ERR_BAD_FILE_EXTENT of btrfs check). Of data that is not compressed the part also lies in the bytes on the
    disk, or it would be read of a neighbour."""
    numbers = (extent.ram, extent.disk, extent.disk_length, extent.offset, extent.length)
    within = extent.ram if extent.compression or not extent.disk else min(extent.ram, extent.disk_length)
    if not extent.length or any(it % SECTOR for it in numbers) or extent.offset + extent.length > within:
        files.found("2.extent-range", number, f"the extent at {place} has {numbers}")
    if bool(extent.disk) != bool(extent.disk_length):
        files.found("2.extent-range", number, f"the extent at {place} has {extent.disk_length} bytes at {extent.disk}")


def check_encoding(files, number, place, extent):
    """2.encoding: there is no encryption and no other encoding, and compression is none, zlib, LZO or zstd
    (check_extent_data_item of Linux's tree-checker). What is compressed is no hole and not preallocated, and belongs
    to an inode with checksums (I_ERR_BAD_FILE_EXTENT of btrfs check); with a place on the disk, it is 128 KiB at
    most and takes fewer bytes on the disk than it has (compress_file_range of Linux keeps no other)."""
    inode = files.inodes.get(number)
    wrong = extent.encryption or extent.encoding or extent.compression > ZSTD
    if extent.compression and extent.kind != INLINE:
        wrong = wrong or extent.kind == PREALLOCATED or not extent.disk
        wrong = wrong or extent.ram > MAX_COMPRESSED or extent.disk_length >= extent.ram
        wrong = wrong or inode and inode.flags & forms.NODATASUM
    if wrong:
        files.found("2.encoding", number, f"the extent at {place} has compression {extent.compression}, and {extent.disk_length} bytes of {extent.ram}")


def check_holes(files):
    """2.holes: where the volume has not the feature no_holes, the extents of a file with names cover it from its
    begin to its size (I_ERR_FILE_EXTENT_DISCOUNT of btrfs check)."""
    if files.volume.super.incompat & NO_HOLES:
        return
    for number, inode in files.inodes.items():
        if not inode.nlink or not (stat.S_ISREG(inode.mode) or stat.S_ISLNK(inode.mode)):
            continue
        end = 0
        for place, extent in files.extents[number]:
            if place > end:
                break
            end = place + covers(extent)
        if end < inode.size:
            files.found("2.holes", number, f"there is no extent at {end}, and the size is {inode.size}")


def check_generation(files, number, place, extent):
    """2.extent-generation: the generation of an extent is at most the superblock's ("invalid generation for extent"
    of btrfs check)."""
    if extent.generation > files.volume.super.generation:
        files.found("2.extent-generation", number, f"the generation of the extent at {place} is {extent.generation}")


def check(trees):
    for files in trees:
        check_owners(files)
        check_order(files)
        check_holes(files)
        for number, extents in files.extents.items():
            for place, extent in extents:
                check_encoding(files, number, place, extent)
                check_generation(files, number, place, extent)
                (check_inline if extent.kind == INLINE else check_range)(files, number, place, extent)
