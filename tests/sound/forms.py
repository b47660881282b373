"""The bytes of Btrfs: numbers of trees and kinds of items, and the grammar of each body that is read. All numbers
are little-endian."""

import struct
from collections import namedtuple

SECTOR = 4096
SUPER_AT = 65536
MAGIC = b"_BHRfS_M"
MAX64 = (1 << 64) - 1
MAX_LEVEL = 8

# kinds of items
INODE, INODE_REF, EXTREF, XATTR, ORPHAN = 1, 12, 13, 24, 48
DIR_ITEM, DIR_INDEX, FILE_EXTENT, SUMS = 84, 96, 108, 128
ROOT, ROOT_BACKREF, ROOT_REF, EXTENT, METADATA = 132, 144, 156, 168, 169
TREE_REF, DATA_REF, SHARED_TREE_REF, SHARED_DATA_REF = 176, 178, 182, 184
BLOCK_GROUP, FREE_INFO, FREE_EXTENT, FREE_BITMAP = 192, 198, 199, 200
DEVICE_EXTENT, DEVICE, CHUNK = 204, 216, 228

# numbers of trees, and of objects
ROOT_TREE, EXTENT_TREE, CHUNK_TREE, DEVICE_TREE, FILE_TREE, SUM_TREE, FREE_TREE = 1, 2, 3, 4, 5, 7, 10
RELOCATION_TREE, DATA_RELOCATION_TREE = MAX64 + 1 - 8, MAX64 + 1 - 9
FIRST_FREE, LAST_FREE = 256, MAX64 + 1 - 256
ROOT_DIRECTORY, ORPHANS, SUM_OBJECT, FIRST_CHUNK = 6, MAX64 + 1 - 5, MAX64 + 1 - 10, 256

# kinds of chunks, and the profile of two copies on one device
DATA, SYSTEM, META, DUP = 1, 2, 4, 32

# flags of extents, of nodes, of inodes
FULL = 256
WRITTEN, RELOCATED = 1, 2
NODATASUM = 1

Key = namedtuple("Key", "objectid kind offset")
KEY = struct.Struct("<QBQ")
ZERO_KEY = Key(0, 0, 0)


class OffForm(Exception):
    """Bytes are not as the grammar has them."""


def unpack(layout, body, at=0):
    """The numbers at a place; the bytes have to be there."""
    if at + struct.calcsize(layout) > len(body):
        raise OffForm(f"ends after {len(body)} bytes")
    return struct.unpack_from(layout, body, at)


def whole(layout, body):
    """The numbers that are all of the body."""
    if struct.calcsize(layout) != len(body):
        raise OffForm(f"has {len(body)} bytes, not {struct.calcsize(layout)}")
    return struct.unpack(layout, body)


def key_at(body, at):
    return Key(*unpack("<QBQ", body, at))


Super = namedtuple(
    "Super",
    "fsid bytenr flags generation root chunk_root log_root total_bytes bytes_used devices sectorsize nodesize leafsize stripesize array_size"
    " chunk_generation compat_ro incompat sum_type root_level chunk_level log_level device array",
)


def superblock(block):
    """The fields of a superblock that are looked at; of its magic and checksum nothing."""
    fsid = block[32:48]
    bytenr, flags = unpack("<QQ", block, 48)
    generation, root, chunk_root, log_root = unpack("<QQQQ", block, 72)
    total, used, _, devices = unpack("<QQQQ", block, 112)
    sizes = unpack("<IIIII", block, 144)
    chunk_generation, _, compat_ro, incompat, sum_type, *levels = unpack("<QQQQHBBB", block, 164)
    array = block[811 : 811 + min(sizes[4], 2048)]
    return Super(
        fsid, bytenr, flags, generation, root, chunk_root, log_root, total, used, devices, *sizes,
        chunk_generation, compat_ro, incompat, sum_type, *levels, block[201:299], array,
    )  # fmt: skip


Chunk = namedtuple("Chunk", "logical length owner stripe_length kind sector stripes")
Stripe = namedtuple("Stripe", "devid offset uuid")


def chunk_size(body, at):
    """How many bytes a chunk's item has by its number of stripes."""
    return 48 + 32 * unpack("<H", body, at + 44)[0]


def chunk(logical, body):
    """A chunk item: 48 bytes, and 32 for each stripe."""
    length, owner, stripe_length, kind, _, _, sector, count, _ = unpack("<QQQQIIIHH", body)
    if len(body) != 48 + 32 * count or not count:
        raise OffForm(f"has {len(body)} bytes and {count} stripes")
    stripes = tuple(Stripe(*unpack("<QQ16s", body, 48 + 32 * i)) for i in range(count))
    return Chunk(logical, length, owner, stripe_length, kind, sector, stripes)


Device = namedtuple("Device", "devid total_bytes bytes_used io_align io_width sector kind generation start group seek bandwidth uuid fsid")


def device(body):
    return Device(*whole("<QQQIIIQQQIBB16s16s", body))


DeviceExtent = namedtuple("DeviceExtent", "chunk_tree chunk_objectid chunk_offset length uuid")


def device_extent(body):
    return DeviceExtent(*whole("<QQQQ16s", body))


BlockGroup = namedtuple("BlockGroup", "used chunk_objectid flags")


def block_group(body):
    return BlockGroup(*whole("<QQQ", body))


RootItem = namedtuple("RootItem", "generation dirid address last_snapshot flags refs drop level_dropped level generation_v2")


def root_item(body):
    """A root item: 439 bytes, or 239 as Linux before 3.6 wrote it."""
    if len(body) not in (239, 439):
        raise OffForm(f"has {len(body)} bytes")
    generation, dirid, address, _, _, last, flags, refs = unpack("<QQQQQQQI", body, 160)
    level_dropped, level = unpack("<BB", body, 237)
    second = unpack("<Q", body, 239)[0] if len(body) == 439 else 0
    return RootItem(generation, dirid, address, last, flags, refs, key_at(body, 220), level_dropped, level, second)


Inode = namedtuple("Inode", "generation transid size nbytes group nlink uid gid mode rdev flags")


def inode(body):
    if len(body) != 160:
        raise OffForm(f"has {len(body)} bytes")
    return Inode(*unpack("<QQQQQIIIIQQ", body))


Named = namedtuple("Named", "directory index name")


def named(layout, body):
    """The records of an item, each a head that ends with the length of the name, and the name."""
    at, found = 0, []
    while at < len(body) or not found:
        *head, length = unpack(layout, body, at)
        at += struct.calcsize(layout)
        name = body[at : at + length]
        if len(name) != length:
            raise OffForm("a name leaves the item")
        at += length
        found.append((head, name))
    return found


def inode_refs(directory, body):
    return [Named(directory, index, name) for (index,), name in named("<QH", body)]


def extrefs(body):
    return [Named(directory, index, name) for (directory, index), name in named("<QQH", body)]


def root_ref(body):
    """A root ref or backref: the directory, the index there and the name."""
    found = [Named(directory, index, name) for (directory, index), name in named("<QQH", body)]
    if len(found) != 1:
        raise OffForm("has more than one name")
    return found[0]


Entry = namedtuple("Entry", "location transid kind name data")


def entries(body):
    """The records of a dir item, a dir index or an attribute."""
    at, found = 0, []
    while at < len(body) or not found:
        objectid, kind, offset, transid, data_length, name_length, entry_kind = unpack("<QBQQHHB", body, at)
        at += 30
        name, data = body[at : at + name_length], body[at + name_length : at + name_length + data_length]
        if len(name) + len(data) != name_length + data_length:
            raise OffForm("a name leaves the item")
        at += name_length + data_length
        found.append(Entry(Key(objectid, kind, offset), transid, entry_kind, name, data))
    return found


INLINE, REGULAR, PREALLOCATED = 0, 1, 2
FileExtent = namedtuple("FileExtent", "generation ram compression encryption encoding kind disk disk_length offset length data")


def file_extent(body):
    """Where a part of a file lies. Of an inline extent `data` is its bytes, and the four numbers of the place are 0."""
    generation, ram, compression, encryption, encoding, kind = unpack("<QQBBHB", body)
    head = (generation, ram, compression, encryption, encoding, kind)
    if kind == INLINE:
        return FileExtent(*head, 0, 0, 0, 0, body[21:])
    if kind > PREALLOCATED:
        raise OffForm(f"has the kind {kind}")
    return FileExtent(*head, *whole("<21xQQQQ", body), b"")


def has_place(extent):
    """An extent with bytes on the disk: neither inline nor a hole."""
    return extent.kind != INLINE and extent.disk != 0
