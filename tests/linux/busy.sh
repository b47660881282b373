#!/bin/sh
# Inside of the machine: a device that is in use is not opened for writing. /dev/vda and /dev/vdb are two disks.
# shellcheck source=tests/linux/said.sh
. ./said.sh

# super PATH: block 16 of what stands at a path
super() { dd if="$1" bs=4096 skip=16 count=1 status=none | sha256sum; }

# refuses NAME PATH: no command that writes opens it, and the superblock stays
refuses() {
    super=$(super "$2")
    found=''
    for word in convert recover rollback 'trial 0'; do
        # shellcheck disable=SC2086
        run $word "$2"
        found="$found$word $status $err$(cat /tmp/out), "
    done
    same "busy: $1" "convert 3 device fault, recover 3 device fault, rollback 3 device fault, trial 0 3 device fault, $super" "$found$(super "$2")"
}

# opens NAME PATH: it is in order, and open to a command that writes
opens() {
    run recover "$2"
    same "busy: $1: recover opens it" '0||volume is reiserfs' "$status|$err|$(head -n 1 /tmp/out)"
}

# a device-mapper device over a disk, /dev/dm-0
over() { echo "0 $(cat "/sys/class/block/${1#/dev/}/size") linear $1 0" | dmsetup create over --noudevsync --noudevrules; }

make() { mkfs.reiserfs -q -f -s 513 "$1" >/dev/null 2>&1; }

make /dev/vda
opens 'a free disk' /dev/vda
ln -s /dev/vda /tmp/link
mknod /tmp/node b "$((0x$(stat -c %t /dev/vda)))" "$((0x$(stat -c %T /dev/vda)))"
mount -t reiserfs /dev/vda /mnt
refuses 'mounted' /dev/vda
refuses 'mounted, by a symlink' /tmp/link
refuses 'mounted, by another node' /tmp/node
run inspect /dev/vda
same 'busy: mounted: inspect opens it for reading' no "$([ "$status" = 3 ] && echo yes || echo no)"
mount --bind /mnt /mnt2 && umount /mnt
refuses 'mounted elsewhere' /dev/vda
umount /mnt2
mount -t reiserfs -o ro /dev/vda /mnt
refuses 'mounted for reading' /dev/vda
umount /mnt
opens 'unmounted' /dev/vda

exec 4</dev/vda
flock 4
refuses 'locked by another program' /dev/vda
exec 4<&-
opens 'no longer locked' /dev/vda

printf ',48M,L\n,,L\n' | sfdisk -q /dev/vdb 2>/dev/null
make /dev/vdb1
make /dev/vdb2
mount -t reiserfs /dev/vdb1 /mnt
refuses 'a mounted partition' /dev/vdb1
refuses 'the disk of a mounted partition' /dev/vdb
opens 'the other partition of that disk' /dev/vdb2
umount /mnt
mkswap /dev/vdb2 >/dev/null 2>&1 && swapon /dev/vdb2
said 'busy: swapped to' $?
refuses 'swapped to' /dev/vdb2
refuses 'the disk of a partition that is swapped to' /dev/vdb
opens 'the other partition' /dev/vdb1
swapoff /dev/vdb2

over /dev/vda
said 'busy: a device over the disk' $?
refuses 'below another device' /dev/vda
opens 'the device over the disk' /dev/dm-0
mount -t reiserfs /dev/dm-0 /mnt
refuses 'the mounted device over the disk' /dev/dm-0
refuses 'below a mounted device' /dev/vda
umount /mnt
dmsetup remove over --noudevsync --noudevrules
over /dev/vdb1
refuses 'a partition below another device' /dev/vdb1
refuses 'the disk of a partition below another device' /dev/vdb
dmsetup remove over --noudevsync --noudevrules

losetup /dev/loop0 /dev/vda && mount -t reiserfs /dev/loop0 /mnt
said 'busy: mounted by a loop device' $?
refuses 'mounted by a loop device' /dev/vda
refuses 'the loop device that is mounted' /dev/loop0
umount /mnt
losetup -d /dev/loop0
cp /dev/vda /tmp/file
losetup /dev/loop0 /tmp/file && mount -t reiserfs /dev/loop0 /mnt
refuses 'a file that is mounted by a loop device' /tmp/file
umount /mnt
losetup -d /dev/loop0
opens 'the file when it is unmounted' /tmp/file

run convert /dev/vda
same 'busy: a free disk is converted' '0|' "$status|$err"
mount -t btrfs /dev/vda /mnt
refuses 'mounted as Btrfs' /dev/vda
refuses 'mounted as Btrfs, by another node' /tmp/node
umount /mnt
run convert /dev/vdb1
same 'busy: a free partition is converted' '0|' "$status|$err"
mount -t btrfs /dev/vdb1 /mnt
refuses 'a partition that is mounted as Btrfs' /dev/vdb1
refuses 'the disk of a partition that is mounted as Btrfs' /dev/vdb
umount /mnt
exit 0
