#!/usr/bin/env bash
# linux.sh [skip] [PART..]: checks the program inside of a real Linux, in virtual machines whose disks are whole block devices. The parts, all
# of them where none is named:
#
#   convert   the way of a user: fill, unmount, convert, mount as Btrfs; and GRUB reads the files of the new volume
#   foreign   Linux writes to a converted volume and moves what is on it; and the way back
#   everyday  a converted volume in use: compression, devices, snapshots, quotas, swap files, two copies of metadata; and the way back
#   power     the power is cut in the middle of the commands that write, and of their writes
#   tight     a volume with just the free space that a conversion needs, and what the kernel can do then
#   failing   one sector of the disk can't be written, always or once, while another process holds it open
#   busy      a device in use is not opened for writing
#   read      the kernel fills a volume of Btrfs, and list prints what Linux sees of it
#
# The machine is put together from Debian's packages on first use (`tests/linux/machine`). Where the packages can't be had this fails,
# or, with the word skip, says so and ends with status 0. RECONV is the program, by itself the one that ./reiserconv runs; JOBS is how many
# machines run at once, by itself one for each processor. A line that begins with # is a figure. The last line is 'N passed, M failed', and the
# status is 0 where M is 0.
set -uo pipefail

top=$(cd "$(dirname "$(readlink -f "${BASH_SOURCE[0]}")")/.." && pwd)
here=$top/tests/linux
work=$(mktemp -d)
trap 'rm -rf "$work"' EXIT
skip=''
if [ "${1:-}" = skip ]; then
    skip=yes
    shift
fi

# cannot REASON: nothing can be checked
cannot() {
    echo "$1"
    echo "0 passed, ${2:-1} failed"
    exit "${2:-1}"
}

if ! "$here/machine" --check; then
    [ -z "$skip" ] || cannot 'skipped: all checks inside of Linux' 0
    cannot 'the virtual machine can not be put together'
fi
PROGRAM=${RECONV:-$("$top/release/find.sh" reiserconv)} || cannot 'the program could not be built'
export PROGRAM ADD="$here/said.sh $here/fill $here/rows $here/saved $here/replay"

# machine NAME SCRIPT MIB..: a machine with disks of these sizes, which are $work/NAME.1 and so on. In place of a size !SECTOR is the first disk once
# more, where each write fails that this sector belongs to, and with !SECTOR!once the first of them.
machine() {
    local name=$1 script=$2 disk=0 disks=() status
    shift 2
    for size in "$@"; do
        if [[ $size == !* ]]; then
            disks+=("$work/$name.1$size")
            continue
        fi
        disks+=("$work/$name.$((disk += 1))")
        truncate -s "${size}M" "${disks[-1]}"
    done
    "$here/machine" "$script" "${disks[@]}" | tr -d '\r'
    status=${PIPESTATUS[0]}
    [ "$status" = 0 ] || echo "FAILED $name: the machine ended with status $status"
}

part_convert() {
    machine convert "$here/convert.sh" 96 96 1
    grub
}

# GRUB reads each file of the converted volume, by the checksums that Linux made of them before. It may refuse one with a hole: version
# 2.06 knows no holes but those that an extent stands for, which is so on volumes of mkfs.btrfs too.
grub() {
    local sum path count=0 unread=0 wrong=''
    while read -r sum path; do
        if ! grub-fstest "$work/convert.1" cat "$path" >"$work/grub" 2>"$work/grub.said" && [[ $path == /holes/* ]] && grep -q 'extent not found' "$work/grub.said"; then
            unread=$((unread + 1))
            continue
        fi
        count=$((count + 1))
        [ "$(sha256sum <"$work/grub" | head -c 64)" = "$sum" ] || wrong+=" $path"
    done < <(tr -d '\0' <"$work/convert.3")
    echo "# grub: $unread files with holes are refused, as GRUB refuses them on each volume of Btrfs"
    if [ "$count" -gt 50 ] && [ -z "$wrong" ]; then echo "ok grub: reads $count files to the byte"; else echo "FAILED grub: of $count files it reads others:$wrong"; fi
}

part_foreign() { machine foreign "$here/foreign.sh" 160 160 160; }
part_everyday() { machine everyday "$here/everyday.sh" 200 200 200; }
part_tight() { machine tight "$here/tight.sh" 48 48; }
part_failing() { machine failing "$here/failing.sh" 128 '!128' '!131072' 128 '!131072!once'; }
part_busy() { machine busy "$here/busy.sh" 64 96; }
part_read() { machine read "$here/read.sh" 300; }

# power_of COMMAND FIRST LAST: these cuts of a command, in a machine of their own
power_of() {
    { printf 'command=%s first=%s last=%s\n' "$@" && cat "$here/power.sh"; } >"$work/power.$1.$2"
    machine "power-$1-$2" "$work/power.$1.$2" 80 80 80
}
part_power-convert-1() { power_of convert 1 20; }
part_power-convert-2() { power_of convert 21 40; }
part_power-rollback() { power_of rollback 1 20; }
part_power-recover() { power_of recover 1 10; }

# The parts run side by side, the longest first, and the output of each is printed when it has ended.
side_by_side() {
    local part jobs=${JOBS:-$(nproc)} running=0
    for part in "$@"; do
        if [ "$running" -ge "$jobs" ]; then wait -n; else running=$((running + 1)); fi
        {
            "part_$part" >"$work/$part.said" 2>&1
            echo "# $part: $SECONDS seconds since the first began" >>"$work/$part.said"
            flock "$work" cat "$work/$part.said"
        } &
    done
    wait
}

[ $# != 0 ] || set -- everyday tight foreign power convert read failing busy
parts=()
for part in "$@"; do
    case $part in
        power) parts+=(power-rollback power-convert-1 power-convert-2 power-recover) ;;
        *) declare -F "part_$part" >/dev/null || cannot "there is no part $part" && parts+=("$part") ;;
    esac
done
side_by_side "${parts[@]}" | tee "$work/said"
passed=$(grep -c '^ok ' "$work/said")
failed=$(grep -c '^FAILED ' "$work/said")
printf '%s passed, %s failed\n' "$passed" "$failed"
[ "$failed" = 0 ] && [ "$passed" != 0 ]
