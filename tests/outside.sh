#!/usr/bin/env bash
# Checks the program against real tools: volumes that mkfs.reiserfs and mkfs.btrfs make and that Linux wrote, and what
# debugreiserfs and btrfs say of them. It installs what it needs of Debian's packages; where that can't be done it says what it skips, and
# with CI=true this counts as a failure. The last line is 'N passed, M failed', and the status is 0 where M is 0.
set -uo pipefail

top=$(cd "$(dirname "$(readlink -f "${BASH_SOURCE[0]}")")/.." && pwd)
work=$(mktemp -d)
trap 'rm -rf "$work"' EXIT
cd "$work" || exit 1

# shellcheck source=tests/outside/lib.sh
. "$top/tests/outside/lib.sh"

# ---- volumes of mkfs.reiserfs ----------------------------------------------------------------------------------------

# what debugreiserfs says of a superblock, in the words of `inspect`
expected_super() {
    local file=$1 said label
    said=$(debugreiserfs "$file" 2>/dev/null)
    field() { printf '%s\n' "$said" | sed -n "s/^$1//p" | head -1; }
    label=$(field 'LABEL: ')
    printf 'format reiserfs\n'
    printf 'blocks %s\n' "$(field 'Count of blocks on the device: ')"
    printf 'free %s\n' "$(printf '%s\n' "$said" | sed -n 's/^Free blocks (.*): //p')"
    printf 'root %s\n' "$(field 'Root block: ')"
    printf 'height %s\n' "$(field 'Tree height: ')"
    printf 'journal %s %s\n' \
        "$(printf '%s\n' "$said" | sed -n 's/.*(first block \([0-9]*\)).*/\1/p')" \
        "$(printf '%s\n' "$said" | sed -n 's/.*Size \([0-9]*\) blocks.*/\1/p' | awk '{print $1 - 1}')"
    printf 'uuid %s\n' "$(field 'UUID: ')"
    printf 'label %s\n' "${label:--}"
}

# the numbers of blocks, free and used, of the last output; "adds up" where used is the rest of the blocks
used_adds_up() {
    awk '$1 == "blocks" { b = $2 } $1 == "free" { f = $2 } $1 == "used" { u = $2 }
        END { print (u == b - f ? "adds up" : b " " f " " u) }' "$work/.out"
}

# ---- words and statuses ----------------------------------------------------------------------------------------------

usage='usage: reiserconv COMMAND [OPTIONS] PATH'
# as the sources have it
version=$(sed -n 's/.*b"reiserconv \([0-9.]*\)\\n".*/\1/p' "$top/crates/volume_app/src/texts.rt")
words_and_statuses() {
    ends 'no words' 2 "$usage"
    ends 'an unknown word' 2 "$usage" frobnicate volume
    ends 'a command alone' 2 "$usage" inspect
    ends 'a list alone' 2 "$usage" list
    ends 'two paths' 2 "$usage" inspect one two
    ends 'a trial without a number' 2 "$usage" trial scratch
    ends 'a number with zeros before it' 2 "$usage" trial 007 scratch
    ends 'a trial of too large a number' 2 "$usage" trial 4001 scratch
    ends 'a path with a dash' 2 "$usage" inspect -x
    ends 'an empty path' 2 "$usage" inspect ''
    ends 'a path that is not there' 3 'device fault' inspect "$work/nothing"
    ends 'a directory' 3 'device fault' inspect "$work"
    run --version
    same 'the version' "0|reiserconv $version|" "$status|$out|$err"
    run --help
    same 'the first line of the help' "0|$usage" "$status|$(head -1 "$work/.out")"
    ends 'help with a path' 2 "$usage" --help volume
    short_words
    words_to_tell_more
    if [ "$(id -u)" = 0 ]; then
        echo 'skipped: an unreadable file, since root can read each'
    else
        : >unreadable
        chmod 000 unreadable
        ends 'an unreadable file' 3 'device fault' inspect unreadable
    fi
    "$top/reiserconv" inspect zeros >"$work/.out" 2>"$work/.err"
    same 'the script passes on status and streams' '3|device fault|' "$?|$(cat "$work/.err")|$(cat "$work/.out")"
    "$top/reiserconv" --version >/dev/full 2>"$work/.err"
    same 'a full output' '5|output fault' "$?|$(cat "$work/.err")"
    "$top/reiserconv" --version >&- 2>"$work/.err"
    same 'a closed output' '5|output fault' "$?|$(cat "$work/.err")"
}

# other words for the help and the version
short_words() {
    local name help
    run --help
    help=$out
    for name in -h 'convert --help' 'inspect -h' 'list --help' 'recover -h' 'rollback --help' 'trial -h'; do
        # shellcheck disable=SC2086
        run $name
        same "the help by $name" "0|$help|" "$status|$out|$err"
    done
    same 'the help names each status and the documents' '0 1 2 3 4 5 6 7 reiserconv(8) HOWTO.md /usr/share/doc/reiserconv' \
        "$(printf '%s\n' "$help" | sed -n '/^Exit status/,$p' | grep -oE '(^  |, )[0-7] |reiserconv\(8\)|[A-Z]*\.md|/usr/share/doc/[a-z]*' | tr -d ', ' | xargs)"
    run -V
    same 'the version by -V' "0|reiserconv $version|" "$status|$out|$err"
    ends 'help behind a word that is no command' 2 "$usage" mount --help
    ends 'help and a path' 2 "$usage" convert --help volume
    ends 'the version behind a command' 2 "$usage" list --version
}

# `--verbose` is an option of each command, once and before the other words but options; it changes no status and no output
words_to_tell_more() {
    local name words
    for words in 'inspect --verbose' 'list --verbose' 'convert --verbose' 'recover --verbose' 'rollback --verbose' 'trial --verbose 7' \
        'inspect --nodesize 4096 --verbose --no-inline' 'convert --label --verbose' 'convert --label a --verbose --uuid new'; do
        # shellcheck disable=SC2086
        run $words "$work/nothing"
        same "$words of a path that is not there" '3|device fault|' "$status|$(head -1 "$work/.err")|$out"
    done
    for words in '--verbose list' 'list --verbose --verbose' 'trial 7 --verbose' 'convert --label --verbose a' 'convert --nodesize --verbose 4096'; do
        # shellcheck disable=SC2086
        begins "$words" 2 "$usage" $words volume
    done
    for name in list convert; do
        begins "an option behind the path of $name" 2 "$usage" "$name" volume --verbose
    done
    for words in '--label a' --copy-label '--uuid new' '--no-inline --no-inline' '--nodesize 4095'; do
        # shellcheck disable=SC2086
        ends "inspect with $words" 2 "$usage" inspect $words volume
    done
}

# ---- what is no clean volume -----------------------------------------------------------------------------------------

refusals() {
    : >empty
    ends 'an empty file' 1 'refused 1 novolume' inspect empty
    truncate -s 65536 short
    ends 'a file that ends before block 16' 1 'refused 1 novolume' inspect short
    truncate -s 1048576 zeros
    ends 'zeros' 1 'refused 1 novolume' inspect zeros
    if need mkfs.ext4 e2fsprogs; then
        truncate -s 8M ext4
        mkfs.ext4 -q ext4
        ends 'an ext4 volume' 1 'refused 1 novolume' inspect ext4
    else
        lacks 'an ext4 volume' mkfs.ext4
    fi
    volume old 20000 --format 3.5
    ends 'a volume of format 3.5' 1 'refused 3 unsupported 1 35' inspect old

    volume good 20000
    one_field() { # NAME LINE BYTE TEXT: a copy with this field is refused so
        cp --sparse=always good changed
        put changed $((super + $3)) "$4"
        ends "$1" 1 "$2" inspect changed
    }
    one_field 'a block size of 8192' 'refused 3 unsupported 2 8192' 44 '\x00\x20'
    one_field 'a journal on another device' 'refused 3 unsupported 3 2065' 16 '\x11\x08'
    one_field 'a volume with marked damage' 'refused 3 unsupported 4 2' 62 '\x02'
    one_field 'too many blocks' 'refused 3 unsupported 5 536870913' 0 '\x01\x00\x00\x20'
    one_field 'a volume that was not unmounted' 'refused 2 unclean 2' 50 '\x02\x00'
    one_field 'a height of 1' 'refused 6 damaged 16 1' 68 '\x01'
    one_field 'a height of 8' 'refused 6 damaged 16 1' 68 '\x08'
    one_field 'a root past the end' 'refused 6 damaged 16 1' 8 '\x20\x4e'
    one_field 'a journal that begins too early' 'refused 6 damaged 16 1' 12 '\x11'
    one_field 'a journal of no blocks' 'refused 6 damaged 16 1' 20 '\x00\x00'
    one_field 'a longer volume than the file' 'refused 4 short 20001 20000' 0 '\x21'
    one_field 'a magic that is none' 'refused 1 novolume' 52 'x'
}

# ---- real volumes ----------------------------------------------------------------------------------------------------

fresh_volumes() {
    local blocks name
    for blocks in 20000 32768 32769 32770 80000; do
        volume fresh "$blocks"
        run inspect fresh
        same "inspect of a fresh volume of $blocks blocks" "0||$(expected_super fresh)" "$status|$err|$(head -8 "$work/.out")"
        same "used blocks of a fresh volume of $blocks blocks" 'adds up' "$(used_adds_up)"
        name="a fresh volume of $blocks blocks is left as it was"
        local before
        before=$(sha256sum <fresh)
        run inspect fresh
        same "$name" "$before" "$(sha256sum <fresh)"
        # the first bit of the bitmap's third byte is that of block 16
        put fresh $((17 * 4096 + 2)) '\xfe'
        ends "a system block marked free, of $blocks blocks" 1 'refused 6 damaged 16 2' inspect fresh
    done
    volume fresh 20000 -l 'My label' -u 12345678-9abc-4def-8123-456789abcdef
    run inspect fresh
    same 'inspect of a label and a uuid' "0||$(expected_super fresh | sed 's/My label/My\\x20label/')" "$status|$err|$(head -8 "$work/.out")"
    volume fresh 4096 -s 513
    run inspect fresh
    same 'inspect of a small journal' "0||$(expected_super fresh)" "$status|$err|$(head -8 "$work/.out")"
}

# listed NAME FILE ROWS: the rows of a volume are those that were taken of it in Linux, to the byte
listed() {
    run list "$2"
    same "list of the volume $1" '0|' "$status|$err"
    if cmp -s "$3" "$work/.out"; then pass; else
        fail "the rows of the volume $1"
        diff "$3" "$work/.out" | head -10
    fi
}

is_btrfs() { [ "$(dd if="$1" bs=1 skip=$((super + 64)) count=8 status=none | tr -d '\0')" = _BHRfS_M ]; }

# what Linux wrote, as it lies in tests/volumes
linux_volumes() {
    need zstd zstd || { lacks 'the packed volumes' zstd; return; }
    local packed name image
    for packed in "$top"/tests/volumes/*.img.zst; do
        name=$(basename "$packed" .img.zst)
        rm -f packed
        zstd -dqf "$packed" -o packed
        if is_btrfs packed && ! need btrfs btrfs-progs; then
            lacks "the volume $name" btrfs
            continue
        fi
        run inspect packed
        if [ "$name" = xattr-volume ]; then
            same "inspect of the volume $name" '1|refused 7 attributes|' "$status|${err% * *}|$out"
            run list packed
            same "list of the volume $name" '1|refused 7 attributes|' "$status|${err% * *}|$out"
            continue
        fi
        if is_btrfs packed; then
            # the volume that was turned into a Btrfs volume keeps an image of what it was
            image=-
            [ "$name" = conv-used ] && image=20480
            same "inspect of the volume $name" "0||$(expected_btrfs packed "$image")" "$status|$err|$out"
        else
            same "inspect of the volume $name" "0||$(expected_super packed)" "$status|$err|$(head -8 "$work/.out")"
            same "used blocks of the volume $name" 'adds up' "$(used_adds_up)"
            # the lines that another program counted
            same "all lines of inspect of the volume $name" "$(cat "$top/tests/volumes/$name.inspect")" "$out"
        fi
        if [ -e "${packed%.img.zst}.rows" ]; then listed "$name" packed "${packed%.img.zst}.rows"; else
            run list packed
            same "list of the volume $name" '0||d 0755 0 0|- - - - - /' "$status|$err|${out:0:10}|${out: -11}"
        fi
        same "the volume $name after both" "$(zstd -dqc "$packed" | sha256sum)" "$(sha256sum <packed)"
    done
}

# 200 changes of one byte in the nodes of a real tree, by a fixed list: each run ends within a second of the processor, and
# either accepts the volume or refuses it
damaged_trees() {
    need zstd zstd || { lacks 'damaged trees' zstd; return; }
    zstd -dqf "$top/tests/volumes/tiny.img.zst" -o packed
    local nodes seed=1 place was refused=0 others=''
    mapfile -t nodes < <(debugreiserfs -d packed 2>/dev/null | sed -n 's/.* NODE (\([0-9]*\)).*/\1/p' | sort -nu)
    draw() { seed=$(((seed * 1103515245 + 12345) % 2147483648)); }
    for _ in {1..200}; do
        draw
        place=$((nodes[seed / 65536 % ${#nodes[@]}] * 4096))
        draw
        # most changes where the heads are
        if ((seed / 65536 % 4)); then draw; place=$((place + seed / 65536 % 256)); else draw; place=$((place + seed / 65536 % 4096)); fi
        was=$(od -An -tx1 -j "$place" -N 1 packed | tr -d ' ')
        draw
        put packed "$place" "$(printf '\\x%02x' $((seed / 65536 % 256)))"
        (
            ulimit -t 1
            exec timeout 60 "$program" inspect packed
        ) >/dev/null 2>&1
        status=$?
        [ "$status" = 1 ] && refused=$((refused + 1))
        [ "$status" -gt 1 ] && others="$others $place:$status"
        put packed "$place" "\\x$was"
    done
    same 'changed bytes of a tree end with status 0 or 1' '' "$others"
    same 'many of them are refused' yes "$([ "$refused" -ge 20 ] && echo yes || echo "$refused")"
    run inspect packed
    same 'the tree as it was is accepted' 0 "$status"
}

# a block device has a length of its own
loop_device() {
    local device
    volume looped 20000
    if ! device=$(losetup --find --show looped 2>/dev/null); then
        echo 'skipped: a loop device, since this machine gives none'
        return
    fi
    run inspect "$device"
    same 'inspect of a loop device' "0||$(expected_super looped)" "$status|$err|$(head -8 "$work/.out")"
    losetup --detach "$device"
}

# ---- Btrfs volumes ---------------------------------------------------------------------------------------------------

# folder DIR: files of every kind, and of each size that is stored in another way
folder() {
    mkdir -p "$1/empty" "$1/deep/er/est" "$1/a space"
    (
        cd "$1" || exit
        : >none
        printf hello >small
        head -c 2048 /dev/urandom >inlined
        head -c 4096 /dev/urandom >whole
        head -c 300001 /dev/urandom >odd
        truncate -s 1M hole
        printf x | dd of=hole bs=1 seek=700000 conv=notrunc status=none
        truncate -s 8192 zeros
        printf x >$'a space/tab\tand\\back'
        printf y >$'deep/\xc3\xa9'
        ln small deep/er/second
        ln small third
        ln -s ../small deep/link
        ln -s 'a b\c' odd-link
        ln -s "$(printf '%01000d' 7)" long-link
        mkfifo -m 640 pipe
        mknod character c 5 1 2>/dev/null
        mknod device b 8 300 2>/dev/null
        for i in {1..300}; do printf '%s' "$i" >"deep/er/est/file-number-$i"; done
        chmod 4755 small
        chmod 0 none
        chmod 1777 empty
        chown 1000:100 inlined 2>/dev/null
        chown -h 7:8 odd-link 2>/dev/null
        find . -exec touch -h -d @1234567890.5 {} +
        # read once, so that the times of reading stay
        find . -type f -exec cat {} + -o -type l -exec readlink {} + >/dev/null
        ls -R >/dev/null
    )
}

# btrfs_volume FILE OPTIONS..: a fresh volume of mkfs.btrfs
btrfs_volume() {
    local file=$1
    shift
    rm -f "$file"
    truncate -s 300M "$file"
    mkfs.btrfs -q "$@" "$file" >/dev/null 2>&1
}

# expected_btrfs FILE [IMAGE]: what btrfs says of a superblock, in the words of `inspect`; IMAGE is the image's number of blocks
expected_btrfs() {
    btrfs inspect-internal dump-super "$1" | awk -v image="${2:--}" '
        $1 == "fsid" { fsid = $2 } $1 == "total_bytes" { blocks = $2 / 4096 } $1 == "generation" { generation = $2 }
        $1 == "nodesize" { size = $2 } $1 == "label" { sub(/^label[ \t]*/, ""); gsub(/ /, "\\x20"); label = $0 }
        END { printf "format btrfs\nfsid %s\nblocks %d\ngeneration %s\nnodesize %s\nlabel %s\nimage %s", fsid, blocks, generation, size, label == "" ? "-" : label, image }'
}

# btrfs_read WHAT OPTIONS..: a volume of mkfs.btrfs with these options and the files of a folder is read, and left as it was
btrfs_read() {
    local what="a Btrfs volume with $1" before
    shift
    btrfs_volume filled -m single -d single -L 'my disk' --rootdir files "$@"
    before=$(sha256sum <filled)
    run inspect filled
    same "inspect of $what" "0||$(expected_btrfs filled)" "$status|$err|$out"
    run list filled
    same "list of $what" '0||d 0755 0 0 - - - - - /' "$status|$err|$(head -1 "$work/.out" | cut -d ' ' -f 1-4,8-)"
    same "the rows of $what" "$(cat wanted)" "$(tail -n +2 "$work/.out")"
    same "$what is left as it was" "$before" "$(sha256sum <filled)"
}

btrfs_volumes() {
    local size
    folder files
    TMPDIR=$work "$top/tests/folder_rows" files >wanted
    btrfs_read 'checksums of SHA-256' --csum sha256
    put filled $((super + 300)) 'A'
    ends 'a wrong SHA-256 of a Btrfs superblock, listed' 1 'refused 13 badbtrfs 65536 1' list filled
    btrfs_volume other -m single -d single --csum xxhash
    ends 'a Btrfs volume with checksums of xxHash, listed' 1 'refused 3 unsupported 12 1' list other
    for size in 4096 16384 65536; do btrfs_read "nodes of $size bytes" -n "$size"; done
    put filled $((super + 300)) 'A'
    ends 'a Btrfs superblock with a changed byte, inspected' 1 'refused 13 badbtrfs 65536 1' inspect filled
    ends 'a Btrfs superblock with a changed byte, listed' 1 'refused 13 badbtrfs 65536 1' list filled
    # what mkfs.btrfs makes by itself has each node twice
    btrfs_volume filled --rootdir files
    read_alike 'as mkfs.btrfs makes it' filled
    btrfs_volume filled -m dup -d dup --rootdir files
    read_alike 'with each node and each file twice' filled
    # another UUID: the nodes keep the old one, until it is the volume's again
    before=$(expected_btrfs filled | sed -n 's/^fsid //p')
    btrfstune -f -m filled >/dev/null
    read_alike 'with a new UUID' filled
    btrfstune -f -M "$before" filled >/dev/null
    read_alike 'with its first UUID again' filled
    # bit 16 of the features that a reader must know: simple quotas, which btrfs-progs 6.2 doesn't make
    with_feature filled 1
    read_alike 'with simple quotas' filled
    with_feature filled 3
    ends 'a Btrfs volume with a feature that is not known' 1 'refused 3 unsupported 11 131072' list filled
    btrfs_volume striped -m raid0 -d raid0
    ends 'a Btrfs volume in stripes, inspected' 1 'refused 3 unsupported 16 10' inspect striped
    ends 'a Btrfs volume in stripes, listed' 1 'refused 3 unsupported 16 10' list striped
}

# read_alike WHAT FILE: a Btrfs volume has the rows in `wanted`, `inspect` tells what btrfs does, and both leave it as it was
read_alike() {
    local before
    before=$(sha256sum <"$2")
    run inspect "$2"
    same "inspect of a Btrfs volume $1" "0||$(expected_btrfs "$2")" "$status|$err|$out"
    run list "$2"
    same "list of a Btrfs volume $1" '0|' "$status|$err"
    same "the rows of a Btrfs volume $1" "$(cat wanted)" "$(tail -n +2 "$work/.out")"
    same "a Btrfs volume $1 is left as it was" "$before" "$(sha256sum <"$2")"
}

# with_feature FILE BYTE: the third byte of its features that a reader must know, with the right checksum
with_feature() {
    PYTHONPATH="$top/tests" python3 - "$1" "$super" "$2" <<'EOF'
import struct
import sys
from crc32c import crc32c

path, at, byte = sys.argv[1], int(sys.argv[2]), int(sys.argv[3])
with open(path, "r+b") as volume:
    volume.seek(at)
    block = bytearray(volume.read(4096))
    block[190] = byte
    struct.pack_into("<I", block, 0, crc32c(block[32:]))
    volume.seek(at)
    volume.write(block)
EOF
}

# ---- sample volumes --------------------------------------------------------------------------------------------------

# makes BLOCKS WORDS..: the same of the maker, on a new file of so many blocks
makes() {
    rm -f made
    truncate -s $(($1 * 4096)) made
    shift
    kept "$maker" "$@" made
}

# unmade NAME STATUS LINE BLOCKS WORDS..: the maker ends so, and writes nothing
unmade() {
    local name=$1 want=$2 line=$3
    shift 3
    makes "$@"
    same "$name" "$want|$line||" "$status|$err|$out|$(tr -d '\0' <made)"
}

maker_usage='usage: sample_volume [--old] NUMBER BLOCKS PATH'
maker_statuses() {
    unmade 'a sample without words' 2 "$maker_usage" 16
    unmade 'a sample of too large a number' 2 "$maker_usage" 16 4001 16
    unmade 'a sample of too many blocks' 2 "$maker_usage" 16 0 536870913
    unmade 'a number with a plus' 2 "$maker_usage" 16 +1 16
    unmade 'an option behind the number' 2 "$maker_usage" 16 0 --old 16
    unmade 'a file that is shorter than the volume' 1 'refused 4 short 8213 8212' 8212 0 8213
    unmade 'a volume that is one block too small' 6 'refused 15 space 8212 8211' 8212 0 8211
    unmade 'a volume that is far too small' 6 'refused 15 space 22884 12288' 12288 4000 12288
    unmade 'a volume of old items that is far too small' 6 'refused 15 space 22877 12288' 12288 --old 4000 12288
    kept "$maker" 0 8212 "$work/nothing"
    same 'a sample at a path that is not there' '3|device fault|' "$status|$err|$out"
    kept "$top/sample_volume" 0 1 zeros
    same 'the script of the maker passes on status and streams' '6|refused 15 space 8212 1|' "$status|$err|$out"
    makes 8300 0 8212
    same 'a sample on a longer file' '0||0' "$status|$err|$(tail -c +$((8212 * 4096 + 1)) made | tr -d '\0' | wc -c)"
}

# what reiserfsck says of a copy: its status, its verdict, and how many directories and other names it found
checked() {
    local said status
    cp --sparse=always "$1" copied
    said=$(reiserfsck --check -y copied 2>&1)
    status=$?
    printf '%s|%s|%s|%s' "$status" "$(printf '%s\n' "$said" | grep -c '^No corruptions found')" \
        "$(printf '%s\n' "$said" | sed -n 's/.*Directories \([0-9]*\).*/\1/p')" "$(printf '%s\n' "$said" | sed -n 's/.*Other files \([0-9]*\).*/\1/p')"
}

# rare KIND USED UNITS NEEDED RUN NAMES CLEAN: a volume with something that is rare (tests/rare_volume.py). The needed units are those
# that another program counted.
rare() {
    "$top/tests/rare_volume.py" "$1" rare
    run inspect rare
    same "inspect of a volume of $1" "0||$(expected_super rare)" "$status|$err|$(head -8 "$work/.out")"
    same "the space of a volume of $1" "used $2 units $3 needed $4 run $5" "$(tail -4 "$work/.out" | xargs)"
    run list rare
    same "list of a volume of $1" "0||$6" "$status|$err|$(wc -l <"$work/.out")"
    if [ "$7" = clean ]; then same "reiserfsck of a volume of $1" '0|1' "$(checked rare | cut -d '|' -f 1,2)"; fi
}

# a file with 65,536 names, a directory of 100,000, and a file of 2^44 bytes with one block, of which reiserfsck wants a
# pointer for each hole
rare_volumes() {
    need python3 python3 || { lacks 'rare volumes' python3; return; }
    rare links 8739 125 28 1 65538 clean
    same 'the further names of a file with 65,536' 65535 "$(grep -c ' = /folder/name00000$' "$work/.out")"
    rare names 10718 125 77 1 100002 clean
    rare sparse 8214 125 4 1 3 other
    same 'the length of a file of 2^44 bytes' 17592186044416 "$(awk '/ \/folder\/sparse$/ { print $11 }' "$work/.out")"
}

# the samples of tests/samples.table
samples() {
    local number blocks items free root height units needed run directories names sum name option
    while read -r number blocks items free root height units needed run directories names sum; do
        [ "$number" = '#' ] && continue
        name="of sample $number in $blocks blocks with $items items"
        option=()
        [ "$items" = old ] && option=(--old)
        makes "$blocks" "${option[@]}" "$number" "$blocks"
        same "making $name" "0|||$sum" "$status|$err|$out|$(sha256sum <made | cut -d ' ' -f 1)"
        run inspect made
        same "inspect $name" "0||$(
            printf 'format reiserfs\nblocks %s\nfree %s\nroot %s\nheight %s\njournal 18 8192\n' "$blocks" "$free" "$root" "$height"
            printf 'uuid %02x%02x0000-0000-0000-0000-000000000000\nlabel -\n' $((number % 256)) $((number / 256))
            printf 'used %s\nunits %s\nneeded %s\nrun %s' $((blocks - free)) "$units" "$needed" "$run"
        )" "$status|$err|$out"
        same "the superblock $name" "$(expected_super made)" "$(head -8 "$work/.out")"
        run list made
        same "list $name" "0||$((1 + (number + 99) / 100 + number))" "$status|$err|$(wc -l <"$work/.out")"
        # one text for a number, in each size and version
        [ -e "rows of $number" ] || cp "$work/.out" "rows of $number"
        same "the rows $name" same "$(cmp -s "rows of $number" "$work/.out" && echo same)"
        same "reiserfsck $name" "0|1|$directories|$names" "$(checked made)"
    done <"$top/tests/samples.table"
}

# ---- convert ---------------------------------------------------------------------------------------------------------

# shellcheck source=tests/outside/convert.sh
. "$top/tests/outside/convert.sh"
# shellcheck source=tests/outside/rollback.sh
. "$top/tests/outside/rollback.sh"
# shellcheck source=tests/outside/power.sh
. "$top/tests/outside/power.sh"
# shellcheck source=tests/outside/trial.sh
. "$top/tests/outside/trial.sh"
# shellcheck source=tests/outside/fuzz.sh
. "$top/tests/outside/fuzz.sh"

# shellcheck source=tests/outside/damaged.sh
. "$top/tests/outside/damaged.sh"
# shellcheck source=tests/outside/sound.sh
. "$top/tests/outside/sound.sh"

# ---- documents, manual page, package ---------------------------------------------------------------------------------

# shellcheck source=tests/outside/users.sh
. "$top/tests/outside/users.sh"
# shellcheck source=tests/outside/terminal.sh
. "$top/tests/outside/terminal.sh"
# shellcheck source=tests/outside/edge.sh
. "$top/tests/outside/edge.sh"
# shellcheck source=tests/outside/old.sh
. "$top/tests/outside/old.sh"

# ---- all -------------------------------------------------------------------------------------------------------------

if ! program=$("$top/release/find.sh" reiserconv) || ! maker=$("$top/release/find.sh" sample_volume); then
    echo 'the programs could not be built'
    echo '0 passed, 1 failed'
    exit 1
fi
words_and_statuses
documents
scripts
manual_page
package
released
other_systems
damaged_volumes
if need mkfs.btrfs btrfs-progs; then btrfs_volumes; else
    lacks 'Btrfs volumes' mkfs.btrfs
fi
if need mkfs.reiserfs reiserfsprogs && need debugreiserfs reiserfsprogs; then
    refusals
    fresh_volumes
    linux_volumes
    damaged_trees
    loop_device
    devices_in_use
    closed_streams
    overwritten
    unseen_devices
    terminals
    maker_statuses
    samples
    rare_volumes
    if need btrfs btrfs-progs && need zstd zstd; then
        convert_volumes
        rolled_back_volumes
        killed_conversions
        killed_rollbacks
        torn_writes
        trials
        howto_lines
        fuzzed_volumes
        sound_volumes
    else
        lacks convert 'btrfs or zstd'
    fi
else
    lacks 'all checks on volumes' reiserfsprogs
fi
printf '%s passed, %s failed\n' "$passed" "$failed"
[ "$failed" = 0 ]
