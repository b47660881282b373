#!/usr/bin/env bash
# Measures `inspect` on a volume whose tree has 50,000 leaves, beside a C program that reads the same blocks of the tree
# with one pread each: the least milliseconds of nine runs, so with the volume in the page cache. It needs python3, cc,
# and a file system that keeps files sparse.
set -euo pipefail

top=$(cd "$(dirname "$(readlink -f "${BASH_SOURCE[0]}")")/.." && pwd)
work=$(mktemp -d)
trap 'rm -rf "$work"' EXIT
program=$("$top/release/find.sh" reiserconv)

cat >"$work/reads.c" <<'C'
#include <fcntl.h>
#include <stdio.h>
#include <stdlib.h>
#include <unistd.h>

/* reads FILE FIRST COUNT: reads so many blocks, one after the other */
int main(int count, char **words) {
    static char block[4096];
    int file = open(words[1], O_RDONLY);
    long first = atol(words[2]), end = first + atol(words[3]);
    if (count != 4 || file < 0) return 1;
    for (long b = first; b < end; b++)
        if (pread(file, block, 4096, b * 4096) != 4096) return 1;
    return 0;
}
C
cc -O2 -o "$work/reads" "$work/reads.c"
read -r _ blocks _ nodes _ height < <(python3 "$top/bench/tree_volume.py" 50000 "$work/volume")
echo "a volume of $blocks blocks, whose tree has $nodes nodes and the height $height"

# least WORDS..: the least milliseconds of nine runs
least() {
    local best=999999 start took
    for _ in {1..9}; do
        start=${EPOCHREALTIME/./}
        "$@" >/dev/null
        took=$(((${EPOCHREALTIME/./} - start) / 1000))
        ((took < best)) && best=$took
    done
    echo "$best"
}
reads=$(least "$work/reads" "$work/volume" 8211 "$nodes")
inspect=$(least "$program" inspect "$work/volume")
printf 'reads    %5s ms\ninspect  %5s ms, %s.%02d times\n' "$reads" "$inspect" $((inspect / reads)) $((inspect * 100 / reads % 100))
