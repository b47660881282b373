#!/bin/sh
# Inside of the machine: a converted volume is used as people use one, with compression and the free space tree from the first mount on, and
# then it goes back; and once more where its metadata stands twice or its UUID was changed. /dev/vda is the volume, /dev/vdb keeps what it was,
# and /dev/vdc is added to it and removed.
# shellcheck source=tests/linux/said.sh
. ./said.sh

filled /dev/vda few
said 'everyday: filled' $?
seen reiserfs /dev/vda /tmp/before
said "everyday: looked at, $(wc -l </tmp/before) paths" $?
cp --sparse=always /dev/vda /dev/vdb
run convert /dev/vda
same 'everyday: converted' '0|' "$status|$err"
mount -t btrfs -o noatime,compress=zstd:3,space_cache=v2 /dev/vda /mnt
said 'everyday: mounts with compression and the free space tree' $?
cd /mnt || exit 1

perl -e 'for (1 .. 20000) { print "the line $_ of many that are alike\n" }' >pressed && head -c 1500 pressed >short && head -c 3000000 /dev/urandom >random && sync
said 'everyday: compressed files' $?
fallocate -l 8M laid && fallocate -p -o 1M -l 1M laid && sync
said 'everyday: room that is laid out' $?
touch plain && chattr +C plain && cat random >plain && sync
said 'everyday: a file without checksums' $?
# setxattr is call 188 of x86-64
perl -e 'for (1 .. 50) { syscall(188, my $path = "pressed", my $name = "user.note-$_", my $value = "x" x $_, $_, 0) == 0 or die $! }'
said 'everyday: attributes' $?
btrfs filesystem defragment -r -czstd sizes names links holes >/dev/null 2>&1
said 'everyday: old files are compressed' $?
btrfs device add -f /dev/vdc /mnt >/tmp/out 2>&1 && head -c 2000000 random >another && sync && btrfs device remove /dev/vdc /mnt >/tmp/out 2>&1
said 'everyday: a device is added and removed' $?
btrfs balance start -m /mnt >/tmp/out 2>&1 && btrfs balance start -f -s /mnt >/tmp/out 2>&1
said 'everyday: metadata is balanced' $?
btrfs subvolume create swaps >/dev/null && touch swaps/file && chattr +C swaps/file && fallocate -l 4M swaps/file && chmod 600 swaps/file &&
    mkswap swaps/file >/dev/null && swapon swaps/file && swapoff swaps/file
said 'everyday: a swap file' $?
btrfs subvolume create part >/dev/null && cp -r names pressed part && btrfs subvolume snapshot -r part taken >/dev/null && mkdir got &&
    btrfs send -q taken 2>/tmp/said | btrfs receive -q got 2>>/tmp/said && [ -s got/taken/pressed ]
said 'everyday: send and receive' $?
btrfs subvolume snapshot /mnt all >/dev/null && btrfs subvolume snapshot -r reiserfs_saved all-saved >/dev/null && rm -r all/names && echo changed >>sizes/8191 && sync
said 'everyday: snapshots, of the image too' $?
cp --reflink=always reiserfs_saved/image copied && cp --reflink=always pressed pressed-too && sync
said 'everyday: blocks that files share, those of the image too' $?
btrfs quota enable /mnt && head -c 300000 random >counted && sync
said 'everyday: quotas' $?
rm -r sizes && mv links moved && ln short again && sync
said 'everyday: old files are removed and moved' $?
fstrim /mnt
said 'everyday: trimmed' $?
scrubbed 'everyday: scrub finds nothing'
perl /job/saved /dev/vdb reiserfs_saved/image
said 'everyday: the image has the bytes of the volume' $?
cd / && umount /mnt
said 'everyday: unmounted' $?
quiet 'everyday: the kernel complains of nothing'

# sound_and_back WHEN: btrfs check finds nothing, and the volume goes back
sound_and_back() {
    checked "everyday, $1: btrfs check finds nothing"
    goes_back "everyday, $1"
}
sound_and_back 'behind all of it'

# again NAME OPTIONS: the old volume is converted once more, and mounted
again() {
    cp /dev/vdb /dev/vda
    run convert /dev/vda
    same "everyday: converted $1" '0|' "$status|$err"
    mount -t btrfs -o "noatime,$2" /dev/vda /mnt
    said "everyday: mounts $1" $?
}
again 'for metadata in two copies' compress-force=zstd:3
btrfs balance start -f -mconvert=dup /mnt >/tmp/out 2>&1
said 'everyday: metadata is kept twice' $?
perl -e 'for (1 .. 20000) { print "the line $_ of many that are alike\n" }' >/mnt/pressed && head -c 2000000 /dev/urandom >/mnt/random && umount /mnt
said 'everyday: compressed files beside it' $?
sound_and_back 'behind metadata in two copies'

again 'for another UUID' compress=lzo
umount /mnt && btrfstune -f -m /dev/vda >/tmp/out 2>&1 && mount -t btrfs -o noatime,compress=lzo /dev/vda /mnt && cp /job/said.sh /mnt/said && umount /mnt
said 'everyday: another UUID' $?
sound_and_back 'behind another UUID'
exit 0
