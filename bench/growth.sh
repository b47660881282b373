#!/usr/bin/env bash
# growth.sh [-r RUNS] [-k KIND] [MOST]: how time and memory of `inspect`, `list`, `convert` and `rollback` grow with a
# volume (bench/many_files.py): with a hundredth of MOST, a tenth, and all of MOST (100000) files, 200 in a directory;
# the same in one directory; and as many extents of one file. -k takes one of these kinds alone: files, directory,
# extents. `list, new` is `list` of the converted volume. A line of the table:
#
#     ms          the least processor time, user and system, of RUNS (3) runs with all in the page cache
#     MiB         the most memory that the program held
#     bytes each  how much more it held than with a tenth, by what there is more of: a file or an extent
#     times       the time by that of a tenth
#     n log n     `times` by what it would be if the time grew as n log n: 1 is just so, more is worse. Where a tenth
#                 took less than 20 ms, there is none
#
# It needs python3 and time (Debian's package). A MOST of 1000000 takes 12 GB of disk that keeps files sparse, 8 GB of
# memory for the page cache, and an hour.
# shellcheck source=bench/begin.sh
. "$(dirname "$(readlink -f "${BASH_SOURCE[0]}")")/begin.sh"

runs=3
kinds=(files directory extents)
while getopts r:k: option; do
    case $option in
        r) runs=$OPTARG ;;
        k) kinds=("$OPTARG") ;;
        *) exit 2 ;;
    esac
done
shift $((OPTIND - 1))
most=${1:-100000}
TIMEFORMAT='%U %S'

# once COMMAND FILE: one run; its milliseconds are in $spent and its KiB in $peak
once() {
    local user system
    { time /usr/bin/time -q -f %M -o "$work/peak" "$program" "$1" "$2" >/dev/null 2>"$work/said" 3>&-; } 2>"$work/spent" || {
        cat "$work/said" >&2
        exit 1
    }
    read -r user system <"$work/spent"
    spent=$((10#${user/./} + 10#${system/./}))
    peak=$(<"$work/peak")
}

# measured COMMAND FILE [COPY]: the least time of the runs in $least and the most memory in $held; with COPY each run
# has a new copy of the file there
measured() {
    least=999999999
    held=0
    for ((run = 0; run < runs; run++)); do
        [ -z "${3:-}" ] || cp --sparse=always "$2" "$3"
        once "$1" "${3:-$2}"
        ((spent >= least)) || least=$spent
        ((peak <= held)) || held=$peak
    done
}

# row COMMAND: a line of the table, beside the same command on the volume before
row() {
    awk -v kind="$kind" -v number="$number" -v before="$before" -v command="$1" -v ms="$least" -v kib="$held" \
        -v old_ms="${times[$1]:-0}" -v old_kib="${peaks[$1]:-0}" 'BEGIN {
            each = times = growth = "-"
            if (before) {
                each = sprintf("%.0f", (kib - old_kib) * 1024 / (number - before))
                if (old_ms >= 20) {
                    times = sprintf("%.2f", ms / old_ms)
                    growth = sprintf("%.2f", ms / old_ms * before * log(before) / (number * log(number)))
                }
            }
            printf "| %s | %d | %s | %d | %.1f | %s | %s | %s |\n", kind, number, command, ms, kib / 1024, each, times, growth
        }'
    times[$1]=$least
    peaks[$1]=$held
}

# volume: the lines of one volume
volume() {
    python3 "$top/bench/many_files.py" "$kind" "$number" "$work/volume" >/dev/null
    for command in inspect list; do
        measured "$command" "$work/volume"
        row "$command"
    done
    measured convert "$work/volume" "$work/new"
    row convert
    rm "$work/volume"
    measured list "$work/new"
    row 'list, new'
    measured rollback "$work/new" "$work/copy"
    row rollback
    rm "$work/new" "$work/copy"
}

echo '| kind | number | command | ms | MiB | bytes each | times | n log n |'
echo '|---|---|---|---|---|---|---|---|'
for kind in "${kinds[@]}"; do
    declare -A times=() peaks=()
    before=0
    for number in $((most / 100)) $((most / 10)) "$most"; do
        volume
        before=$number
    done
done
