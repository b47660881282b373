#!/usr/bin/env bash
# list.sh [DIRECTORIES]: measures `list` on volumes of 200 files in each of 350 directories, so 70,000 files and about 1 GB,
# of ReiserFS and, where mkfs.btrfs is at hand, of Btrfs, beside `sha256sum` over the same files' bytes. Each figure is the
# least processor time, of the program and the kernel for it, of three runs with all in the page cache, so that other work
# on the machine tells little. It prints how many times that of sha256sum each list takes, and the most memory that it held.
# It needs python3, 4 GB of disk, and 2 GB of memory for the page cache.
set -euo pipefail

top=$(cd "$(dirname "$(readlink -f "${BASH_SOURCE[0]}")")/.." && pwd)
work=$(mktemp -d)
trap 'rm -rf "$work"' EXIT
program=$("$top/release/find.sh" reiserconv)
python3 "$top/bench/files_volume.py" "${1:-350}" "$work/files" "$work/reiserfs"

# listed FORMAT: the times and the memory of `list` on the volume of a format
listed() {
    local list held rows
    read -r list held < <(python3 "$top/bench/measure.py" "$work/rows" "$program" list "$work/$1")
    rows=$(wc -l <"$work/rows")
    printf '%-9s %6s ms, %s.%02d times; %s rows, %s KiB held: %s bytes a row beside 64 MiB\n' "$1" "$list" \
        $((list / sums)) $((list * 100 / sums % 100)) "$rows" "$held" $(((held - 65536) * 1024 / rows))
}

(cd "$work/files" && find "$PWD" -type f -print0 | sort -z) >"$work/names"
read -r sums _ < <(FROM=$work/names python3 "$top/bench/measure.py" "$work/sums" xargs -0 sha256sum)
printf 'sha256sum %6s ms\n' "$sums"
listed reiserfs
if command -v mkfs.btrfs >/dev/null; then
    rm "$work/reiserfs"
    truncate -s 3G "$work/btrfs"
    mkfs.btrfs -q -m single -d single --rootdir "$work/files" "$work/btrfs" >/dev/null 2>&1
    listed btrfs
else
    echo 'skipped: Btrfs, since mkfs.btrfs is not to be had'
fi
