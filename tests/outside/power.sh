# shellcheck shell=bash disable=SC2154
# What is left of a volume when `convert` or `rollback` is killed at fifty moments: `recover` opens it, `list` prints the rows from before, and
# the judge of the format that is there finds nothing. A rollback that was cut off can be done again. And what is left where the power is cut in the
# middle of their writes (tests/torn.py). tests/outside.sh reads this file.

# milliseconds COMMAND..: how long it takes
milliseconds() {
    local begun=$EPOCHREALTIME
    "$@" >"$work/.out" 2>"$work/.err"
    awk -v a="$begun" -v b="$EPOCHREALTIME" 'BEGIN { printf "%d", (b - a) * 1000 }'
}

# judge FILE: the format that is there, and what its own tool says. reiserfsck notes in the superblock that it looked, so it looks at a copy.
judge() {
    if [ "$(dd if="$1" bs=1 skip=65600 count=8 status=none | tr -d '\0')" = _BHRfS_M ]; then
        kept btrfs check --readonly "$1"
        echo "btrfs $status $(grep -c 'no error found' "$work/.out")"
    else
        cp --sparse=always "$1" judged
        kept reiserfsck --check -y judged
        echo "reiserfs $status $(cat "$work/.out" "$work/.err" | grep -c 'No corruptions found')"
    fi
}

# killed NAME FILE WORDS..: the command is killed at fifty moments on copies of a file: twenty over most of its time, and thirty about
# its end, where it takes sometimes a little less and sometimes a little more. Behind each the function of this name looks at the copy.
killed() {
    local name=$1 file=$2 behind=$3 whole moment format before pid
    shift 3
    cp --sparse=always "$file" copied
    whole=$(milliseconds "$program" "$@" copied)
    run list "$file"
    before=$(sha256sum <"$work/.out")
    formats=
    for moment in $(seq 1 50); do
        cp --sparse=always "$file" copied
        "$program" "$@" copied >/dev/null 2>&1 &
        pid=$!
        sleep "$(awk -v t="$whole" -v i="$moment" 'BEGIN { printf "%.4f", t / 1000 * (i <= 20 ? i / 22 : 0.9 + (i - 20) / 150) }')"
        kill -KILL "$pid" 2>/dev/null
        wait "$pid" 2>/dev/null
        run recover copied
        format=$(sed -n 's/^volume is //p' "$work/.out")
        same "recover after $name was killed at moment $moment" '0||2' "$status|$err|$(wc -l <"$work/.out")"
        run recover copied
        same "a second recover after moment $moment of $name" "0||volume is $format mirrors 0" "$status|$err|$(paste -sd ' ' "$work/.out")"
        run list copied
        same "the rows after $name was killed at moment $moment" "0|$before" "$status|$(sha256sum <"$work/.out")"
        same "the volume after $name was killed at moment $moment" "$format 0 1" "$(judge copied)"
        "$behind" "$name" "$format" "$moment"
        formats+="$format "
    done
    echo "killed $name: $(tr ' ' '\n' <<<"$formats" | sort | uniq -c | awk 'NF == 2 { printf "%s %s  ", $1, $2 }')"
}

nothing_more() { :; }

killed_conversions() {
    makes 65536 4000 65536
    killed 'a conversion' made nothing_more convert
}

# goes_back NAME FORMAT MOMENT: what is left of a rollback is the old volume, or can be rolled back still
goes_back() {
    if [ "$2" = btrfs ]; then
        run rollback copied
        same "another rollback after $1 was killed at moment $3" '0|' "$status|$err"
    fi
    same "the used blocks after $1 was killed at moment $3" "$wanted" "$(used_sum copied reiserfs)"
}

killed_rollbacks() {
    makes 65536 4000 65536
    cp --sparse=always made reiserfs
    wanted=$(used_sum reiserfs reiserfs)
    run convert made
    killed 'a rollback' made goes_back rollback
}

# A sample of ten files, a volume that Linux filled, and one with a file where the first copy of a Btrfs superblock belongs and with a superblock
# that its map of objects fills; and the definitions of what is torn, on examples.
torn_writes() {
    need python3 python3 || { lacks 'torn writes' python3; return; }
    counted 'the model of a crash' "$top/tests/crash_model.py"
    need cc gcc || { lacks 'torn writes' cc; return; }
    is_built || { lacks 'torn writes' 'the program in crates/reiserconv/out, as rt ci builds it,'; return; }
    makes 12288 10 12288
    zstd -dqf "$top/tests/volumes/tiny.img.zst" -o tiny
    "$top/tests/rare_volume.py" copied copied
    RECONV=$top/crates/reiserconv/out/reiserconv counted 'torn writes' "$top/tests/torn.py" made tiny copied
}
