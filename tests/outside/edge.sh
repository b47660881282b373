# shellcheck shell=bash disable=SC2154
# That nothing but the volume is touched, and the volume by nobody else: closed streams, what a trial would overwrite, mounts that this process
# does not see, tables of the system that can't be read, and devices that are read-only. tests/outside.sh reads this file.

# ---- closed streams --------------------------------------------------------------------------------------------------

# without STREAMS WORDS..: the program with these of the standard streams closed; its status is in $status, and what it printed in $out and $err
without() {
    local streams=$1
    shift
    : >"$work/.out"
    : >"$work/.err"
    (
        exec >"$work/.out" 2>"$work/.err" </dev/null
        case $streams in *0*) exec <&- ;; esac
        case $streams in *1*) exec >&- ;; esac
        case $streams in *2*) exec 2>&- ;; esac
        exec "$@"
    )
    status=$?
    out=$(cat "$work/.out")
    err=$(cat "$work/.err")
}

# line STREAMS TEXT: the text where standard error is open
line() { case $1 in *2*) ;; *) printf '%s' "$2" ;; esac; }

# each set of closed streams: a file that is opened later gets none of their numbers, so that no text is written into it
closed_streams() {
    local closed before rolled converted want
    makes 12288 7 12288
    cp --sparse=always made before
    run convert made
    cp --sparse=always made after
    before=$(sha256sum <before)
    for closed in 0 1 2 01 02 12 012; do
        cp --sparse=always before volume
        without "$closed" "$program" rollback volume
        same "a refused rollback, closed $closed" "1|$(line "$closed" 'refused 16 format')||$before" "$status|$err|$out|$(sha256sum <volume)"
        without "$closed" "$program" convert volume
        case $closed in *1*) want="5|$(line "$closed" 'output fault')|" ;; *) want='0||converted to btrfs' ;; esac
        same "convert, closed $closed" "$want" "$status|$err|$(head -1 "$work/.out")"
        # each run has identifiers of its own, so the texts of both runs are compared, and the length of the file
        kept "$program" list volume
        converted=$(sha256sum <"$work/.out")
        kept "$program" list after
        same "what was converted, closed $closed" "$(sha256sum <"$work/.out")|$(stat -c %s before)" "$converted|$(stat -c %s volume)"
        same "no text in what was converted, closed $closed" '0' "$(grep -c 'converted to btrfs' volume)"
        without "$closed" "$program" recover volume
        case $closed in *1*) want="5|$(line "$closed" 'output fault')" ;; *) want='0|' ;; esac
        same "recover, closed $closed" "$want|$(stat -c %s before)" "$status|$err|$(stat -c %s volume)"
        without "$closed" "$program" rollback volume
        rolled=$("$program" list volume | sha256sum)
        same "rollback, closed $closed" "${want%|*}|$("$program" list before | sha256sum)|$(stat -c %s before)" "$status|$rolled|$(stat -c %s volume)"
        rm -f volume
        truncate -s $((12288 * 4096)) volume
        without "$closed" "$maker" 7 12288 volume
        same "a sample, closed $closed" "0|$before" "$status|$(sha256sum <volume)"
    done
    closed_without_null
    rm -f before after volume
}

# where there is no /dev/null another file takes the numbers
closed_without_null() {
    local ended
    unshare --mount true 2>/dev/null || { echo 'skipped: closed streams without /dev/null, since this machine gives no mount name space'; return; }
    cp --sparse=always before volume
    # shellcheck disable=SC2016
    unshare --mount --propagation private sh -c 'mount -t tmpfs none /dev && exec "$1" convert volume >&- 2>&-' - "$program"
    ended=$?
    same 'convert without /dev/null and without streams' "5|$(stat -c %s before)|0" "$ended|$(stat -c %s volume)|$(grep -c 'converted to btrfs' volume)"
}

# ---- what a trial would overwrite ------------------------------------------------------------------------------------

# The file is one block too short for a trial, so that one that opens it ends at once.
short=65535

# holds NAME: a trial and a sample on the file `scratch` are device faults, and leave it as it was; on a terminal it is told what is there. Where
# `wipefs` has taken that away, a trial opens the file.
holds() {
    local before
    before=$(sha256sum <scratch)
    ends "a trial on $1" 3 'device fault' trial 0 scratch
    kept "$maker" 0 8212 scratch
    same "a sample on $1" '3|device fault|' "$status|$err|$out"
    same "$1 is as it was" "$before" "$(sha256sum <scratch)"
    if need script bsdutils; then
        on_terminal trial 0 scratch
        same "a trial on $1, on a terminal" yes "$([[ $out == *"opening it: it holds $1."*'Nothing was written. What to do:'*"'wipefs -a scratch'"* ]] && echo yes || echo "$out")"
    fi
    wipefs -qaf scratch
    ends "a trial where $1 was wiped" 1 "refused 4 short 65536 $short" trial 0 scratch
}

# holds_made NAME TOOL PACKAGE WORDS..: the same of what a tool makes on the file, where the tool is to be had
holds_made() {
    local name=$1 tool=$2 package=$3
    shift 3
    need "$tool" "$package" || { lacks "a trial on $name" "$tool"; return; }
    scratch "$short"
    if "$tool" "$@" >/dev/null 2>&1; then holds "$name"; else fail "$tool made nothing"; fi
}

# holds_bytes NAME BYTE BYTES: the same of bytes at a place
holds_bytes() {
    scratch "$short"
    put scratch "$2" "$3"
    holds "$1"
}

# sectors WORDS..: partitions as sfdisk makes them
sectors() { printf '%s\n' "$@" | sfdisk -q scratch; }

overwritten() {
    local name='an ext2, ext3 or ext4 file system' place
    holds_made "$name" mkfs.ext4 e2fsprogs -q -F scratch
    holds_made "$name" mkfs.ext2 e2fsprogs -q -F scratch
    for place in 16 32; do holds_made 'a FAT file system' mkfs.vfat dosfstools -F "$place" scratch; done
    holds_made 'an NTFS file system' mkfs.ntfs ntfs-3g -q -F scratch
    holds_made 'an exFAT file system' mkfs.exfat exfatprogs scratch
    holds_made 'an F2FS file system' mkfs.f2fs f2fs-tools -f scratch
    holds_made 'a JFS file system' mkfs.jfs jfsutils -q scratch
    holds_made 'a UDF file system' mkudffs udftools scratch
    holds_made 'swap space' mkswap util-linux scratch
    overwritten_tables
    holds_bytes 'a LUKS volume' 0 'LUKS\xba\xbe\x00\x02'
    holds_bytes 'a physical volume of LVM' 512 'LABELONE\x01\0\0\0\0\0\0\0\0\0\0\0\x20\0\0\0LVM2 001'
    # such bytes alone are none for wipefs
    scratch "$short"
    put scratch 32769 'CD001'
    overwrites_nothing 'an ISO 9660 file system'
    overwritten_members
    # mkfs.xfs makes none that is so short
    scratch "$short"
    put scratch 0 'XFSB'
    overwrites_nothing 'an XFS file system'
    if need mkfs.xfs xfsprogs; then
        scratch 81920
        mkfs.xfs -q scratch >/dev/null 2>&1
        overwrites_nothing 'what mkfs.xfs made'
    else
        lacks 'a trial on what mkfs.xfs made' mkfs.xfs
    fi
    # a volume of the formats that the program knows, refused by itself
    scratch "$short"
    mkfs.btrfs -q -f scratch >/dev/null 2>&1
    untried 'a trial on a fresh Btrfs volume' 'refused 16 format' 0
    scratch "$short"
    mkfs.reiserfs -q -f scratch >/dev/null 2>&1
    untried 'a trial on a fresh ReiserFS volume' 'refused 16 format' 0
    kept "$maker" 0 8212 scratch
    same 'a sample on a ReiserFS volume' '0||' "$status|$err|$out"
    rm -f scratch
}

# partition tables, the last one with its copy at the end alone
overwritten_tables() {
    need sfdisk fdisk || { lacks 'a trial on a partition table' sfdisk; return; }
    holds_made 'a partition table (MBR)' sectors fdisk 'label: dos' 'start=2048, type=83'
    holds_made 'a partition table (GPT)' sectors fdisk 'label: gpt' 'start=2048'
    scratch "$short"
    printf 'label: gpt\nstart=2048\n' | sfdisk -q scratch >/dev/null 2>&1
    dd if=/dev/zero of=scratch bs=4096 count=1 conv=notrunc status=none
    holds 'a partition table (GPT)'
}

# members of a RAID with a superblock at each of its places, which mdadm makes of loop devices alone, of bcache, and of a pool of ZFS
overwritten_members() {
    local place
    # the versions 1.1 and 1.2 at the front, 1.0 at 8 KiB before the end, 0.90 in the last but one 64 KiB
    # shellcheck disable=SC2017
    for place in 0 4096 $((short * 4096 - 8192)) $((short / 16 * 65536 - 65536)); do
        scratch "$short"
        put scratch "$place" '\xfc\x4e\x2b\xa9\x01'
        overwrites_nothing "a RAID at byte $place"
    done
    scratch "$short"
    put scratch 4120 '\xc6\x85\x73\xf6\x4e\x1a\x45\xca\x82\x65\xf5\x7f\x48\xba\x6d\x81'
    overwrites_nothing 'a bcache'
    scratch "$short"
    for place in {4..9}; do put scratch $((131072 + place * 1024)) '\x0c\xb1\xba\0\0\0\0\0'; done
    overwrites_nothing 'a pool of ZFS'
}

# overwrites_nothing NAME: a trial on the file `scratch` is a device fault, and leaves it as it was
overwrites_nothing() {
    local before
    before=$(sha256sum <scratch)
    ends "a trial on $1" 3 'device fault' trial 0 scratch
    same "$1 is as it was" "$before" "$(sha256sum <scratch)"
}

# ---- devices that others use, or that can't be told of -----------------------------------------------------------------

# unwritten NAME PATH: no command that writes opens a device, and its bytes stay
unwritten() {
    local before word
    before=$(sha256sum <"$2")
    for word in convert recover rollback; do ends "$1: $word" 3 'device fault' "$word" "$2"; done
    ends "$1: trial" 3 'device fault' trial 0 "$2"
    same "$1: its bytes" "$before" "$(sha256sum <"$2")"
}

# within NAME SCRIPT WANT: what a run of `recover` on $device says in a mount name space of its own, behind a script
within() {
    local found
    # shellcheck disable=SC2016
    found=$(unshare --mount --propagation private sh -c "$2"' && { "$1" recover "$2" 2>&1; echo "$?"; }' - "$program" "$device" | head -1)
    same "$1" "$3" "$found"
}

# told_within NAME SCRIPT TEXT: the same on a terminal, where the text is said
told_within() {
    # shellcheck disable=SC2016
    SHELL=/bin/bash unshare --mount --propagation private script -qec "$(printf '%s && %q recover %q' "$2" "$program" "$device")" /dev/null </dev/null >"$work/.out" 2>/dev/null
    out=$(tr '\r\n' '  ' <"$work/.out" | tr -s ' ')
    same "$1, on a terminal" yes "$([[ $out == *"$3"* ]] && echo yes || echo "$out")"
}

unseen_devices() {
    local device
    truncate -s 1M looped
    if ! unshare --mount true 2>/dev/null || ! device=$(losetup --find --show looped 2>/dev/null); then
        echo 'skipped: devices that others use unseen, since this machine gives no loop device or no mount name space'
        return
    fi
    losetup --detach "$device"
    mounted_unseen
    mounted_outside
    hidden_tables
    read_only_devices
    dropped_caches
}

# an ext4 file system that another mount name space has mounted
mounted_unseen() {
    local device holder
    need mkfs.ext4 e2fsprogs || { lacks 'a device that is mounted unseen' mkfs.ext4; return; }
    rm -f there scratch
    scratch 81920
    mkfs.ext4 -q -F scratch
    device=$(losetup --find --show scratch)
    mkdir -p mounted
    # shellcheck disable=SC2016
    unshare --mount --propagation private sh -c 'mount -t ext4 -o ro "$1" mounted && : >there && exec sleep 3600' - "$device" &
    holder=$!
    waits_for test -e there
    same 'this process does not see the mount' 0 "$(grep -c "$work/mounted" /proc/self/mountinfo)"
    unwritten 'mounted in another name space' "$device"
    if need script bsdutils; then
        tells 'mounted in another name space' 3 'device fault' "'grep -l $device /proc/*/mountinfo' names the processes that see the mount." recover "$device"
    fi
    same 'who has it mounted is found' "/proc/$holder/mountinfo" "$(grep -l "$device" /proc/[0-9]*/mountinfo)"
    kill "$holder"
    wait "$holder" 2>/dev/null
    rm -f there
    losetup --detach "$device"
}

# one that is mounted outside of the root folder in which the program runs, as where somebody mends a system from another one
mounted_outside() {
    local device number file before word
    need mkfs.ext4 e2fsprogs || { lacks 'a device that is mounted outside of a root folder' mkfs.ext4; return; }
    scratch 81920
    mkfs.ext4 -q -F scratch
    device=$(losetup --find --show scratch)
    mkdir -p mounted root/proc root/sys
    cp "$program" root/program
    # the libraries of a program that is not linked with them
    while read -r file; do
        mkdir -p "root$(dirname "$file")"
        cp -L "$file" "root$file"
    done < <(ldd "$program" 2>/dev/null | grep -o '/[^ ]*')
    number=$(cat "/sys/class/block/$(basename "$device")/dev")
    mknod root/device b "${number%:*}" "${number#*:}"
    before=$(sha256sum <"$device")
    for word in convert recover rollback 'trial 0'; do
        # shellcheck disable=SC2016
        kept unshare --mount --propagation private bash -c '
            mount -t ext4 -o ro "$1" mounted && mount -t proc proc root/proc && mount -t sysfs sysfs root/sys || exit
            chroot root /program $2 /device
            exit $?' - "$device" "$word"
        same "mounted outside of a root folder: $word" '3|device fault|' "$status|$err|$out"
    done
    # shellcheck disable=SC2016
    kept unshare --mount --propagation private bash -c 'mount -t proc proc root/proc && mount -t sysfs sysfs root/sys && { chroot root /program recover /device; exit $?; }'
    same 'the same device, unmounted, is opened' '1|refused 1 novolume|' "$status|$err|$out"
    same 'mounted outside of a root folder: its bytes' "$before" "$(sha256sum <"$device")"
    losetup --detach "$device"
    rm -r root
}

# where /proc or /sys has nothing, nobody can tell whether a device is in use, so it is not opened for writing; a plain file is
hidden_tables() {
    local device folder
    makes 12288 7 12288
    device=$(losetup --find --show made)
    within 'a device with both folders' true 'volume is reiserfs'
    for folder in /proc /sys; do
        within "a device without $folder" "mount -t tmpfs none $folder" 'device fault'
        told_within "a device without $folder" "mount -t tmpfs none $folder" "since '/proc' or '/sys' can't be read. Nothing was written."
    done
    same 'the device without its tables is as it was' "$(sha256sum <made)" "$(sha256sum <"$device")"
    losetup --detach "$device"
    device=made
    for folder in /proc /sys; do within "a plain file without $folder" "mount -t tmpfs none $folder" 'volume is reiserfs'; done
}

# a device that is read-only, and a file of a file system that is
read_only_devices() {
    local device
    makes 12288 7 12288
    device=$(losetup --read-only --find --show made)
    unwritten 'read-only' "$device"
    run inspect "$device"
    same 'a read-only device is inspected' '0|format reiserfs' "$status|$(head -1 "$work/.out")"
    if need script bsdutils; then
        tells 'a read-only device' 3 'device fault' "It is read-only. Nothing was written. What to do: See" convert "$device"
    fi
    losetup --detach "$device"
    mkdir -p mounted
    device=mounted/made
    within 'a file of a file system that is read-only' 'mount -t tmpfs none mounted && cp made mounted && mount -o remount,ro mounted' 'device fault'
    told_within 'a file of a file system that is read-only' 'mount -t tmpfs none mounted && cp made mounted && mount -o remount,ro mounted' 'It is read-only. Nothing was written.'
}

# how often Linux has dropped what it keeps of devices and files
drops() { awk '$1 == "drop_pagecache" { print $2 }' /proc/vmstat; }

# a device that is opened for writing: what Linux keeps of it is dropped
dropped_caches() {
    local device before
    if ! [ -w /proc/sys/vm/drop_caches ] || [ -z "$(drops)" ]; then
        echo 'skipped: what Linux keeps of a device, which can not be dropped here'
        return
    fi
    makes 12288 7 12288
    device=$(losetup --find --show made)
    before=$(drops)
    run recover "$device"
    same 'what Linux keeps is dropped where a device is opened for writing' '0|volume is reiserfs|dropped' \
        "$status|$(head -1 "$work/.out")|$([ "$(drops)" -gt "$before" ] && echo dropped)"
    losetup --detach "$device"
}
