#!/usr/bin/env bash
# chunks.sh: how many chunks `convert` makes of large volumes: an empty one of 2 TiB, whose bitmaps lie 128 MiB apart, and one of
# 500 GB that has a used block in every other MiB, but for the first 256 MiB, where the chunk tree finds room. Both are sparse
# files of the program sample_volume (SAMPLE names another one); in the second one the bits are set in its bitmaps, and nothing
# else uses these blocks. It needs btrfs-progs, python3, and a disk that keeps files of 2 TiB sparse.
# shellcheck source=bench/begin.sh
. "$(dirname "$(readlink -f "${BASH_SOURCE[0]}")")/begin.sh"
sample=${SAMPLE:-$("$top/release/find.sh" sample_volume)}

# scatter FILE BLOCKS: marks the middle block of every other MiB from 256 MiB on as used
scatter() {
    python3 - "$@" <<'END'
import sys

BLOCK, BITS = 4096, 32768
with open(sys.argv[1], "r+b") as volume:
    for first in range(0, int(sys.argv[2]), BITS):
        volume.seek(BLOCK * (first or 17))
        bits = bytearray(volume.read(BLOCK))
        for block in range(128 if first > BITS else BITS, min(BITS, int(sys.argv[2]) - first), 512):
            bits[block // 8] |= 1 << block % 8
        volume.seek(BLOCK * (first or 17))
        volume.write(bits)
END
}

# measured NAME FILE: converts the volume, and prints a line of the table
measured() {
    local began
    began=$(date +%s%N)
    "$program" convert "$2" >"$work/text"
    printf '| %s | %s | %s |\n' "$1" "$(btrfs inspect-internal dump-tree -t chunk "$2" | grep -c '^.item [0-9]* key (.* CHUNK_ITEM')" \
        "$((($(date +%s%N) - began) / 1000000000))"
    rm "$2"
}

# volume FILE BLOCKS: an empty one
volume() {
    truncate -s $((4096 * $2)) "$1"
    "$sample" 0 "$2" "$1" >"$work/text"
}

printf '| volume | chunks | seconds |\n|---|---|---|\n'
volume "$work/empty" $((1 << 29))
measured '2 TiB, empty' "$work/empty"
blocks=$((500000000000 / 4096))
volume "$work/scattered" $blocks
scatter "$work/scattered" $blocks
measured '500 GB, a used block in every other MiB' "$work/scattered"
