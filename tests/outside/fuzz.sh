# shellcheck shell=bash disable=SC2154
# What the program makes of volumes whose metadata was changed: 2,000 runs of tests/fuzz.py, always of the same seeds. They take a minute or
# two; on a machine with much other work there may be fewer. tests/outside.sh reads this file.

fuzzed_volumes() {
    need python3 python3 || { echo 'skipped: changed metadata, since python3 is not to be had'; return; }
    need zstd zstd || { echo 'skipped: changed metadata, since zstd is not to be had'; return; }
    RECONV=$program kept "$top/tests/fuzz.py" --first 1 --count 2000 --seconds 900 --check 20
    same 'changed metadata of both formats' '0|' "$status|$(grep '^FAILED' "$work/.out")"
    same 'changed metadata: the runs that were made' yes "$(awk '$2 == "passed," && $1 >= 500 { print "yes" }' "$work/.out")"
    grep '^seeds' "$work/.out"
}
