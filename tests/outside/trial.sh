# shellcheck shell=bash disable=SC2154
# Trials on files: what a trial prints, that what it leaves is good ReiserFS with the rows of its sample, and that what it refuses is as it was.
# tests/outside.sh reads this file.

# trial_text NUMBER ROWS BYTES: what a trial prints
trial_text() { printf 'trial %s\nrows %s\nbytes %s\nconverted\nsame rows\nrolled back\nsame blocks' "$@"; }

# scratch BLOCKS: a new file of so many blocks
scratch() {
    rm -f scratch
    truncate -s $(($1 * 4096)) scratch
}

# untried NAME LINE WORDS..: a trial on the file `scratch` is refused so, and leaves it as it was
untried() {
    local name=$1 line=$2 before
    shift 2
    before=$(sha256sum <scratch)
    ends "$name" 1 "$line" trial "$@" scratch
    same "$name leaves the file as it was" "$before" "$(sha256sum <scratch)"
}

# tried NUMBER ROWS BYTES DIRECTORIES: a trial on a new file, and what other programs say of what it leaves
tried() {
    scratch 65536
    run trial "$1" scratch
    same "a trial of $1 files" "0||$(trial_text "$1" "$2" "$3")" "$status|$err|$out"
    same "reiserfsck of what a trial of $1 files leaves" "0|1|$4|$1" "$(checked scratch)"
    run inspect scratch
    same "inspect of what a trial of $1 files leaves" "0||$(expected_super scratch)" "$status|$err|$(head -8 "$work/.out")"
    run list scratch
    cp "$work/.out" rows
    makes 65536 "$1" 65536
    run list made
    same "the rows of what a trial of $1 files leaves" same "$(cmp -s rows "$work/.out" && echo same)"
}

# a file that is longer than the volume keeps what is behind it
tried_on_longer_file() {
    scratch 65600
    head -c $((64 * 4096)) /dev/urandom >behind
    dd if=behind of=scratch bs=4096 seek=65536 conv=notrunc status=none
    run trial 7 scratch
    same 'a trial on a longer file' '0||same blocks' "$status|$err|$(tail -1 "$work/.out")"
    same 'a trial leaves what is behind its volume' same "$(tail -c +$((65536 * 4096 + 1)) scratch | cmp -s behind - && echo same)"
    untried 'a second trial' 'refused 16 format' 7
    run convert scratch
    same 'what a trial leaves is converted' '0||converted to btrfs' "$status|$err|$(head -1 "$work/.out")"
    kept btrfs check --readonly scratch
    same 'btrfs check of what a trial leaves, converted' 0 "$status"
    untried 'a trial on a Btrfs volume' 'refused 16 format' 7
}

trials() {
    tried 0 1 0 1
    tried 100 102 1650882 2
    tried 4000 4041 66672510 41
    tried_on_longer_file
    scratch 65535
    untried 'a trial on a short file' 'refused 4 short 65536 65535' 0
    scratch 65536
    "$program" trial 1 scratch >/dev/full 2>"$work/.err"
    same 'a trial whose text is not printed' '5|output fault' "$?|$(cat "$work/.err")"
    run list scratch
    same 'list of what it leaves' '0||3' "$status|$err|$(wc -l <"$work/.out")"
    ends 'a trial at a path that is not there' 3 'device fault' trial 1 "$work/nothing"
    rm -f scratch rows
}
