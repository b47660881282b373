#!/bin/sh
# Inside of the machine: the kernel fills a volume that mkfs.btrfs made, and the program has to list what Linux sees of it.
# shellcheck source=tests/linux/said.sh
. ./said.sh

mkfs.btrfs -q -f /dev/vda >/dev/null 2>&1
said 'read: made' $?
mount -t btrfs -o noatime /dev/vda /mnt && perl /job/fill /mnt btrfs >/dev/null && umount /mnt
said 'read: filled by Linux' $?
seen btrfs /dev/vda /tmp/before
status=$?
said "read: looked at by Linux, $(wc -l </tmp/before) paths" $status
run list /dev/vda
same 'read: list ends with status 0' '0|' "$status|$err"
same_file 'read: list prints what Linux sees' /tmp/before /tmp/out
run inspect /dev/vda
same 'read: inspect names the format' '0|format btrfs' "$status|$(head -n 1 /tmp/out)"
quiet 'read: the kernel complains of nothing'
exit 0
