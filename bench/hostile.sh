#!/usr/bin/env bash
# hostile.sh [PART]: measures `inspect`, `list` and `convert` on volumes that are hostile in size (bench/hostile_volume.py), of each
# kind two, the second of twice the number, and `list` once more on what is converted, whose text has to be the one from before.
# PART divides the numbers, for a try with a slow build. Each figure is the least processor time of three runs with all in the page
# cache, and the most memory that the program held; a little below 14 MiB is what python3 itself holds. The table's last column says how many times as long the second volume
# takes. It needs python3, 10 GB of disk that keeps files sparse, and 2 GB of memory for the page cache.
#
# `list` prints each path whole, so the text of a chain of directories grows by the square of its length, and with it the time; the text of
# 30,000 has 0.9 GB. So `list` is measured on a chain of a tenth, and the longest ones are seen by `inspect` and `convert` alone.
# shellcheck source=bench/begin.sh
. "$(dirname "$(readlink -f "${BASH_SOURCE[0]}")")/begin.sh"

part=${1:-1}

# measured WORDS..: the time and the memory of the program in $time and $held; its output goes through a sum into $sum
measured() {
    read -r time held < <(python3 "$top/bench/measure.py" "$work/text" "$program" "$@")
    sum=$(sha256sum <"$work/text")
}

# row COMMAND: a line of the table from the last measurement, and how it stands to the same command on the volume before
row() {
    local before=${times[$1]:-} ratio=-
    [ "$number" = "$first" ] || ratio=$(awk -v a="$time" -v b="$before" 'BEGIN { printf "%.2f", a / (b ? b : 1) }')
    times[$1]=$time
    printf '| %-7s | %7s | %8s | %-14s | %7s | %7s | %9s | %5s |\n' "$kind" "$number" "$used" "$1" "$time" $((held / 1024)) \
        "$(stat -c %s "$work/text")" "$ratio"
}

# volume KIND NUMBER WAY: the lines of one volume, where WAY is silent without those of `list`
volume() {
    local before
    kind=$1 number=$2
    python3 "$top/bench/hostile_volume.py" "$kind" "$number" "$work/volume" >/dev/null
    measured inspect "$work/volume"
    used=$(sed -n 's/^used //p' "$work/text")
    row inspect
    [ "$3" = silent ] || { measured list "$work/volume"; before=$sum; row list; }
    COPY=$work/volume measured convert "$work/copy"
    row convert
    [ "$3" = silent ] || same_rows "$before"
    rm "$work/volume" "$work/copy"
}

# same_rows SUM: the line of `list` on the converted volume, which has to print the text with this checksum
same_rows() {
    measured list "$work/copy"
    row 'list, new'
    if [ "$sum" != "$1" ]; then
        echo "the rows of the converted volume of $kind $number are others" >&2
        exit 1
    fi
}

printf '| kind    |  number |   blocks | command        |      ms |     MiB |      text | times |\n'
printf '|---------|---------|----------|----------------|---------|---------|-----------|-------|\n'
while read -r name last way; do
    declare -A times=()
    first=$((last / 2 / part))
    volume "$name" "$first" "$way"
    volume "$name" $((2 * first)) "$way"
done <<'NUMBERS'
deep 100000
names 100000
links 65535
chain 3000
chain 30000 silent
extents 1000000
long 40000
NUMBERS
