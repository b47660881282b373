#!/usr/bin/env python3
"""The definitions of what a crash may leave, and of how block 16 is turned, as plain programs, tried on examples: crash_model.py.

They are those of crates/outside/specs/History.antt and of crates/super_turn/specs, under the same names. Looked at is that they fit together:
- what a device leaves that writes sectors of 512 bytes is what they allow, whole blocks are a case of it, and other bytes are none;
- what a crash leaves while block 16 is turned, in either direction, is one of the two superblocks, or half turned;
- what is half turned is put back, also where that was cut off, and anything else is left alone.

The last line is `N passed, M failed`."""

import itertools
import random
import sys

SECTOR, SECTORS = 512, 8
SUPER_BLOCK, MARK = 16, b"reiserconv turns"
# how many crashes are drawn of each step
DRAWS = 16
draw = random.Random(1)
tried = {True: 0, False: 0}


def holds(name, is_so):
    tried[bool(is_so)] += 1
    if not is_so:
        print(f"FAILED {name}")


# ---- crates/outside/specs/History.antt: calls are ("wrote", block, bytes, whether reads give them) or ("synced",), the newest first


def sector(block, s):
    return block[s * SECTOR : (s + 1) * SECTOR]


def reads_from(start, calls):
    image = list(start)
    for call in reversed(calls):
        if call[0] == "wrote" and call[3]:
            image[call[1]] = call[2]
    return image


def synced_from(start, calls):
    for i, call in enumerate(calls):
        if call[0] == "synced":
            return reads_from(start, calls[i + 1 :])
    return list(start)


def waits(calls, b):
    new = itertools.takewhile(lambda call: call[0] != "synced", calls)
    return [call[2] for call in new if call[1] == b]


def is_torn(values, old, block):
    return all(any(sector(block, s) == sector(value, s) for value in [old, *values]) for s in range(SECTORS))


def may_leave(start, calls, image):
    synced = synced_from(start, calls)
    return len(image) == len(start) and all(is_torn(waits(calls, b), synced[b], image[b]) for b in range(len(image)))


# ---- crates/super_turn/specs


def marked(block, place):
    return block[:128] + MARK + place.to_bytes(8, "little") + block[152:]


def with_first(first, rest):
    return first[:SECTOR] + rest[SECTOR:]


def copy_place(image):
    return int.from_bytes(image[SUPER_BLOCK][144:152], "little")


def is_half_turned(image):
    block, place = image[SUPER_BLOCK], copy_place(image)
    if block[64:72] == b"_BHRfS_M" or block[128:144] != MARK or place >= len(image) or place == SUPER_BLOCK:
        return False
    return block[:128] == image[place][:128] and block[152:SECTOR] == image[place][152:SECTOR]


def put_back(image):
    return with_super(image, image[copy_place(image)]) if is_half_turned(image) else image


# ---- examples


def left(start, calls):
    """What a device leaves: each sector that waits is as at the last sync, or as one of the writes has it."""
    image = synced_from(start, calls)
    for b in {call[1] for call in calls if call[0] == "wrote"}:
        values = [image[b], *waits(calls, b)]
        image[b] = b"".join(sector(draw.choice(values), s) for s in range(SECTORS))
    return image


def histories():
    """Small histories, with what a device leaves of them."""
    start = [draw.randbytes(SECTOR * SECTORS) for _ in range(3)]
    calls = []
    for _ in range(draw.randrange(6)):
        write = ("wrote", draw.randrange(3), draw.randbytes(SECTOR * SECTORS), draw.random() < 0.8)
        calls.insert(0, ("synced",) if draw.random() < 0.25 else write)
    image = left(start, calls)
    holds("what a device leaves is allowed", may_leave(start, calls, image))
    whole = [draw.choice([block, *waits(calls, b)]) for b, block in enumerate(synced_from(start, calls))]
    holds("whole blocks are allowed", may_leave(start, calls, whole))
    image[draw.randrange(3)] = draw.randbytes(SECTOR * SECTORS)
    holds("other bytes are not allowed", not may_leave(start, calls, image))


def with_super(image, block):
    return [*image[:SUPER_BLOCK], block, *image[SUPER_BLOCK + 1 :]]


def written(image, steps, look):
    """Block 16 is written step by step, each with a sync behind it. What crashes leave is looked at."""
    for block in steps:
        calls = [("wrote", SUPER_BLOCK, block, True)]
        for _ in range(DRAWS):
            look(left(image, calls))
        image = reads_from(image, calls)
    return image


def turned(place):
    """Block 16 is turned there and back, with a copy in another block."""
    old = draw.randbytes(52) + b"ReIsEr2Fs" + draw.randbytes(SECTOR * SECTORS - 61)
    new = draw.randbytes(64) + b"_BHRfS_M" + draw.randbytes(SECTOR * SECTORS - 72)
    mark, met = marked(old, place), set()

    def look(image):
        block = image[SUPER_BLOCK]
        half = block[:SECTOR] == mark[:SECTOR]
        met.add("old" if block == old else "new" if block == new else "half" if half else "neither")
        holds("half turned is what has the mark", is_half_turned(image) == half)
        right = with_super(image, new if block == new else old)
        holds("what is half turned is put back, and nothing else", put_back(image) == right)
        if half:
            steps = [with_first(block, old), old]
            written(image, steps, lambda again: holds("putting back may be cut off", put_back(again) == right))

    image = [draw.randbytes(SECTOR * SECTORS) for _ in range(24)]
    image[place] = image[SUPER_BLOCK] = old
    for steps in ([mark, with_first(mark, new), new], [with_first(mark, new), mark, old]):
        met.clear()
        image = written(image, steps, look)
        holds("block 16 is turned", image[SUPER_BLOCK] == steps[-1] and met == {"old", "half", "new"})


for _ in range(200):
    histories()
for place in (0, 3, 20):
    turned(place)
print(f"{tried[True]} passed, {tried[False]} failed")
sys.exit(1 if tried[False] else 0)
