#!/usr/bin/env bash
# inspect.sh [DIRECTORIES]: measures `inspect` on a ReiserFS volume of 200 files in each of 390 directories, so 78,000 files
# and about 1 GB, and on fresh volumes of 1 GiB, 300 GiB and 2 TiB (the largest that is accepted). Each figure is the least
# processor time of three runs with all in the page cache, and the most memory that the program held. It needs python3, 3 GB
# of disk and 2 GB of memory for the page cache, and for the fresh volumes mkfs.reiserfs and a file system that keeps files
# sparse.
# shellcheck source=bench/begin.sh
. "$(dirname "$(readlink -f "${BASH_SOURCE[0]}")")/begin.sh"

# inspected NAME FILE: the time and the memory of `inspect`
inspected() {
    read -r time held < <(python3 "$top/bench/measure.py" "$work/text" "$program" inspect "$2")
    printf '%-24s %6s ms %8s KiB\n' "$1" "$time" "$held"
}

# what the program holds of a small volume, which has few files and a short bitmap
small=$work/small
python3 "$top/bench/files_volume.py" 1 "$work/few" "$small"
inspected '1 directory of files' "$small"
least=$held

directories=${1:-390}
python3 "$top/bench/files_volume.py" "$directories" "$work/many" "$work/reiserfs"
inspected "$directories directories of files" "$work/reiserfs"
files=$(((directories - 1) * 200))
printf '%s bytes a file\n' $(((held - least) * 1024 / files))
rm -r "$work/many" "$work/reiserfs"

if ! command -v mkfs.reiserfs >/dev/null; then
    echo 'skipped: fresh volumes, since mkfs.reiserfs is not to be had'
    exit 0
fi
for size in 1 300 2048; do
    rm -f "$work/fresh"
    truncate -s "${size}G" "$work/fresh"
    mkfs.reiserfs -q -f "$work/fresh" >/dev/null 2>&1
    inspected "fresh, $size GiB" "$work/fresh"
done
