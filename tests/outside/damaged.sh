# shellcheck shell=bash disable=SC2154
# Damaged volumes and failing calls: tests/damaged.py, and tests/failing.py without the sample volume. tests/outside.sh reads this file, and
# sets $top, $work, $program and what `kept` tells.

# counted NAME SCRIPT WORDS..: a script whose last line counts its checks; each of those that failed is one here
counted() {
    local name=$1
    shift
    kept "$@"
    same "$name" '0|' "$status|$(grep '^FAILED' "$work/.out")"
    passed=$((passed + $(awk 'END { print ($2 == "passed,") ? $1 : 0 }' "$work/.out")))
}

# Whether the program in crates/reiserconv/out is the one that $program is made of, as the kit built it
is_built() {
    local built=$top/crates/reiserconv/out/reiserconv
    [ "$program" = "$built" ] || grep -qxF "built reiserconv $(sha256sum <"$built" | cut -d ' ' -f 1)" "$top/release/MADE_OF"
} 2>/dev/null

damaged_volumes() {
    need python3 python3 || { lacks 'damaged volumes and failing calls' python3; return; }
    RECONV=$program counted 'damaged volumes' "$top/tests/damaged.py"
    need cc gcc || { lacks 'failing calls' cc; return; }
    if is_built; then
        RECONV=$top/crates/reiserconv/out/reiserconv counted 'failing calls' "$top/tests/failing.py" --sample 0
    else
        lacks 'failing calls' 'the program in crates/reiserconv/out, as rt ci builds it,'
    fi
}
