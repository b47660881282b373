# shellcheck shell=dash disable=SC2034
# How a check is counted inside of the machine. The scripts there read this file.

# said NAME STATUS: a line for a check
said() {
    if [ "$2" = 0 ]; then echo "ok $1"; else echo "FAILED $1"; fi
}

# same NAME EXPECTED FOUND: two texts are the same
same() {
    if [ "$2" = "$3" ]; then echo "ok $1"; else
        echo "FAILED $1"
        printf '%s\n' "$2" >/tmp/expected
        printf '%s\n' "$3" >/tmp/found
        diff /tmp/expected /tmp/found | head -n 20
    fi
}

# same_file NAME EXPECTED FOUND: two files are the same, and hold something
same_file() {
    if [ -s "$2" ] && cmp -s "$2" "$3"; then echo "ok $1"; else
        echo "FAILED $1"
        diff "$2" "$3" | head -n 20
    fi
}

# run WORDS..: the program; its status is in $status, its output in /tmp/out and its error line in $err
run() {
    reiserconv "$@" >/tmp/out 2>/tmp/err
    status=$?
    err=$(cat /tmp/err)
}

# the options by which a volume of a kind is mounted here: flags are seen, and times stay
options() { if [ "$1" = reiserfs ]; then echo noatime,attrs; else echo noatime; fi; }

# filled DISK [few]: a new ReiserFS volume with a small journal, which the kernel fills
filled() {
    mkfs.reiserfs -q -f -s 513 -l 'a label' "$1" >/dev/null 2>&1 &&
        mount -t reiserfs -o noatime,attrs "$1" /mnt && perl /job/fill /mnt reiserfs ${2:+"$2"} >/dev/null && umount /mnt
}

# seen KIND DISK FILE: mounts a volume for reading, and puts into a file what Linux sees of it
seen() {
    mount -t "$1" -o "ro,$(options "$1")" "$2" /mnt && perl /job/rows /mnt "$1" >"$3" && umount /mnt
}

# checked NAME: btrfs check finds nothing on /dev/vda, and warns of nothing
checked() {
    btrfs check --check-data-csum /dev/vda >/tmp/out 2>&1
    same "$1" '0 1 0' "$? $(grep -c 'no error found' /tmp/out) $(grep -ciE 'mirror|mismatch|warning' /tmp/out)"
}

# scrubbed NAME: scrub reads each block of /mnt and finds nothing
scrubbed() {
    btrfs scrub start -B /mnt >/tmp/out 2>&1
    same "$1" '0 1' "$? $(grep -c 'no errors found' /tmp/out)"
}

# goes_back NAME: /dev/vda goes back: each block that was in use is as on /dev/vdb, and the tree is that of /tmp/before
goes_back() {
    run rollback /dev/vda
    same "$1: rollback ends with status 0" '0||rolled back to reiserfs' "$status|$err|$(head -n 1 /tmp/out)"
    perl /job/saved /dev/vdb /dev/vda
    said "$1: each used block is as it was" $?
    run list /dev/vda
    same_file "$1: list prints the first tree" /tmp/before /tmp/out
    reiserfsck --check -y /dev/vda >/tmp/out 2>&1
    same "$1: reiserfsck finds nothing" '0 1' "$? $(grep -c 'No corruptions found' /tmp/out)"
}

# device NAME: makes a device of the table that is read
device() { dmsetup create "$1" --noudevsync --noudevrules; }

# begun DISK: /dev/dm-0 is /dev/vda again, and what is written to it goes to this disk
begun() {
    [ ! -e /dev/dm-0 ] || dmsetup remove tried --noudevsync --noudevrules
    echo "0 $(cat /sys/class/block/vda/size) snapshot /dev/vda $1 N 8" | device tried
}

# super_of DISK FILE: puts block 16 of a disk into a file
super_of() { dd if="$1" of="$2" bs=4096 skip=16 count=1 2>/dev/null; }

# many_objects DISK: files are made and each second one is removed, so that the map of objects in the superblock has more than 77 numbers, which
# would fill its first 512 bytes
many_objects() {
    mount -t reiserfs -o noatime,attrs "$1" /mnt && mkdir /mnt/objects || return
    (cd /mnt/objects && for i in $(seq 200); do : >"$i"; done && rm ./*[13579]) && umount /mnt || return
    numbers=$(dd if="$1" bs=2 skip=$((65536 / 2 + 24)) count=1 2>/dev/null | perl -e 'read STDIN, $it, 2; print unpack "v", $it')
    [ "$numbers" -gt 77 ]
}

# quiet NAME: the kernel has complained of nothing since the last time, but that it will drop ReiserFS
dmesg -c >/dev/null
quiet() {
    dmesg -c | grep -iE 'BTRFS:? (warning|error|critical)|reiserfs (warning|error|panic)|I/O error|BUG|WARNING:|Oops|call trace' | grep -v deprecated >/tmp/complaints
    same "$1" '' "$(cat /tmp/complaints)"
}
