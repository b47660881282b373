#!/usr/bin/env bash
# convert.sh [DIRECTORIES]: measures `convert` on a ReiserFS volume of 200 files in each of 385 directories, so 77,000 files
# and about 1 GB, on one of half as many, and on a fresh volume of 300 GiB; and beside it Debian's btrfs-convert on an ext4
# volume with the same files; and `rollback` of the converted volume of 77,000 files. Each figure is the least processor time of three runs on copies that are in the page cache,
# and the most memory that the program held. It needs python3, 8 GB of disk and 3 GB of memory for the page cache, and
# btrfs-convert, mkfs.ext4 and mkfs.reiserfs.
# shellcheck source=bench/begin.sh
. "$(dirname "$(readlink -f "${BASH_SOURCE[0]}")")/begin.sh"

# measured NAME FILE WORDS..: the time and the memory of a program on copies of a file
measured() {
    local name=$1 file=$2
    shift 2
    read -r time held < <(COPY=$file python3 "$top/bench/measure.py" "$work/text" "$@" "$work/copy")
    printf '%-36s %6s ms %8s KiB\n' "$name" "$time" "$held"
    rm -f "$work/copy"
}

# files_of DIRECTORIES NAME: a ReiserFS volume of files, with room for the trees of a conversion, and the files
files_of() { python3 "$top/bench/files_volume.py" "$1" "$work/$2.files" "$work/$2" 100000; }

directories=${1:-385}
files_of $((directories / 2)) half
measured "convert, $((directories / 2)) directories" "$work/half" "$program" convert
once=$time
rm -r "$work/half.files" "$work/half"
files_of "$directories" whole
measured "convert, $directories directories" "$work/whole" "$program" convert
whole=$time
held_whole=$held
awk -v a="$whole" -v b="$once" 'BEGIN { printf "twice the files take %.2f times as long\n", a / b }'

"$program" convert "$work/whole" >"$work/text"
measured "rollback, $directories directories" "$work/whole" "$program" rollback
awk -v a="$time" -v b="$whole" 'BEGIN { printf "rollback takes %.2f of the time of convert\n", a / b }'
rm "$work/whole"

truncate -s "$(($(du -sm "$work/whole.files" | cut -f 1) * 3 / 2 + 512))M" "$work/ext4"
mkfs.ext4 -q -N $((directories * 202 + 1000)) -d "$work/whole.files" "$work/ext4"
rm -r "$work/whole.files"
measured "btrfs-convert of the same files" "$work/ext4" btrfs-convert
awk -v a="$whole" -v b="$time" -v c="$held_whole" -v d="$held" \
    'BEGIN { printf "convert takes %.2f of the time of btrfs-convert, and %.2f of its memory\n", a / b, c / d }'
rm "$work/ext4"

truncate -s 300G "$work/fresh"
mkfs.reiserfs -q -f "$work/fresh" >/dev/null 2>&1
measured 'convert, fresh, 300 GiB' "$work/fresh" "$program" convert
