#!/usr/bin/env bash
# sums.sh [DIRECTORIES]: what checksums by SHA-256 cost. It measures `convert` with and without `--csum sha256` on a ReiserFS volume of 200 files in
# each of 385 directories, so 77,000 files and about 1 GB, and `sha256sum` over as many bytes as the new volume has blocks of data. Each figure is
# the least processor time of three runs in the page cache, and the most memory that the program held. It needs python3, 4 GB of disk and 3 GB of
# memory for the page cache.
# shellcheck source=bench/begin.sh
. "$(dirname "$(readlink -f "${BASH_SOURCE[0]}")")/begin.sh"

# told NAME: the figures that were read last
told() { printf '%-36s %6s ms %8s KiB\n' "$1" "$time" "$held"; }

# measured NAME WORDS..: the time and the memory of a program on copies of the volume
measured() {
    local name=$1
    shift
    read -r time held < <(COPY=$work/whole python3 "$top/bench/measure.py" "$work/text" "$@" "$work/copy")
    told "$name"
    rm -f "$work/copy"
}

python3 "$top/bench/files_volume.py" "${1:-385}" "$work/files" "$work/whole" 100000
rm -r "$work/files"
measured 'convert' "$program" convert
plain=$time
measured 'convert --csum sha256' "$program" convert --csum sha256
hashed=$time
head -c $((4096 * $(sed -n 's/^blocks //p' "$work/text"))) "$work/whole" >"$work/used"
read -r time held < <(FROM=$work/used python3 "$top/bench/measure.py" "$work/text" sha256sum)
told "sha256sum of $(($(stat -c %s "$work/used") >> 20)) MiB"
awk -v a="$hashed" -v b="$plain" -v c="$time" 'BEGIN { printf "SHA-256 takes %.2f of the time of sha256sum more\n", (a - b) / c }'
