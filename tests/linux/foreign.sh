#!/bin/sh
# Inside of the machine: what is on a converted volume is written, removed, renamed, and moved by the kernel's own tools, list prints what
# Linux sees then, and the volume goes back. /dev/vda is the volume, /dev/vdb keeps what it was, /dev/vdc what it became.
# shellcheck source=tests/linux/said.sh
. ./said.sh

filled /dev/vda few
said 'foreign: filled' $?
seen reiserfs /dev/vda /tmp/before
status=$?
said "foreign: looked at, $(wc -l </tmp/before) paths" $status
cp --sparse=always /dev/vda /dev/vdb
run convert /dev/vda
same 'foreign: converted' '0|' "$status|$err"
mount -t btrfs -o noatime /dev/vda /mnt
said 'foreign: mounts for writing' $?
quiet 'foreign: the kernel complains of nothing when it mounts'
cd /mnt || exit 1

mkdir new && perl -e 'for (1 .. 3000) { open my $out, ">", "new/file-$_" or die $!; print {$out} "$_ " x ($_ % 500); close $out or die $! }'
said 'foreign: small files' $?
head -c 12345678 /dev/urandom >large && sync
said 'foreign: a large file' $?
rm -r many sizes/65537 sizes/100 && find new -name '*7' -exec rm {} +
said 'foreign: removed' $?
mv sizes/300001 moved && mv links/d1 new/d1 && mv holes cavities && mv new/file-1 names/-
said 'foreign: renamed' $?
ln links/one again && ln large new/large && ln sizes/2048 twice && rm links/d2/name-1
said 'foreign: linked' $?
echo inside | dd of=moved bs=1 seek=100000 conv=notrunc status=none && echo behind >>sizes/4096 && truncate -s 5000 sizes/12289 && truncate -s 1M sizes/1
said 'foreign: written into old files' $?
chmod 600 sizes/2049 && chown 5:6 sizes/4095 && touch -d @1000000001.25 sizes/4097 && chattr +i new/file-2 && mkfifo new/pipe && ln -s nowhere new/link
said 'foreign: modes, owners, times, flags' $?
cp --reflink=always large copied && rm large && sync
said 'foreign: blocks that two files share' $?
btrfs subvolume snapshot /mnt /mnt/snapshot >/dev/null && btrfs subvolume snapshot -r /mnt /mnt/second >/dev/null && echo changed >>sizes/8191 && rm snapshot/moved && sync
said 'foreign: snapshots' $?
btrfs subvolume delete -c /mnt/snapshot /mnt/second >/dev/null && btrfs subvolume sync /mnt >/dev/null
said 'foreign: snapshots gone' $?
btrfs filesystem defragment -r sizes new moved cavities >/dev/null 2>&1
said 'foreign: defragmented' $?
btrfs filesystem label /mnt 'another label'
said 'foreign: a label' $?
scrubbed 'foreign: scrub finds nothing'
btrfs balance start -musage=100 /mnt >/tmp/out 2>&1
said 'foreign: metadata is balanced' $?
btrfs balance start -f -mconvert=dup /mnt >/tmp/out 2>&1
said 'foreign: metadata is kept twice' $?
fstrim /mnt
said 'foreign: trimmed' $?
perl /job/saved /dev/vdb reiserfs_saved/image
said 'foreign: the image has the bytes of the volume' $?
cd / && umount /mnt
said 'foreign: unmounted' $?

# judged NAME: what is on /dev/vda is a good volume, and list prints what Linux sees
judged() {
    checked "foreign: btrfs check $1 finds nothing"
    seen btrfs /dev/vda /tmp/after
    status=$?
    said "foreign: looked at $1, $(wc -l </tmp/after) paths" $status
    run list /dev/vda
    same "foreign: list $1 ends with status 0" '0|' "$status|$err"
    same_file "foreign: list $1 prints what Linux sees" /tmp/after /tmp/out
    run inspect /dev/vda
    same "foreign: inspect $1 finds the image" "0||another\\x20label|$(($(cat /sys/class/block/vda/size) / 8))" \
        "$status|$err|$(sed -n 's/^label //p' /tmp/out)|$(sed -n 's/^image //p' /tmp/out)"
    quiet "foreign: the kernel complains of nothing $1"
}
judged 'behind the writes'
cp --sparse=always /dev/vda /dev/vdc

goes_back 'foreign'
mount -t reiserfs -o noatime,attrs /dev/vda /mnt && perl /job/rows /mnt reiserfs >/tmp/after && echo more >/mnt/more && umount /mnt
said 'foreign: mounts as ReiserFS for writing' $?
same_file 'foreign: Linux sees the first tree' /tmp/before /tmp/after
quiet 'foreign: the kernel complains of nothing behind rollback'

# Files that are compressed, inline and in extents, and room that is only laid out are in no one's way.
cp /dev/vdc /dev/vda
mount -t btrfs -o noatime,compress=zstd:3 /dev/vda /mnt
said 'foreign: mounts with compression' $?
perl -e 'for (1 .. 20000) { print "the line $_ of many that are alike\n" }' >/mnt/pressed && head -c 1500 /mnt/pressed >/mnt/short && fallocate -l 4M /mnt/laid && sync
said 'foreign: compressed files, and room that is laid out' $?
btrfs filesystem defragment -r -czstd /mnt/sizes /mnt/new /mnt/moved >/dev/null 2>&1
said 'foreign: old files are compressed' $?
perl /job/saved /dev/vdb /mnt/reiserfs_saved/image
said 'foreign: the image beside them has the bytes of the volume' $?
umount /mnt
checked 'foreign: btrfs check behind compression finds nothing'
run list /dev/vda
same 'foreign: list does not read compressed files' '1|refused 3 unsupported 17 3' "$status|$err"
goes_back 'foreign, behind compression'
quiet 'foreign: the kernel complains of nothing behind compression'

# A balance of data moves blocks of the image too.
cp /dev/vdc /dev/vda
mount -t btrfs -o noatime /dev/vda /mnt && btrfs balance start -dusage=100 /mnt >/tmp/out 2>&1
said 'foreign: data is balanced' $?
perl /job/saved /dev/vdb /mnt/reiserfs_saved/image
said 'foreign: the moved image has the bytes of the volume' $?
umount /mnt
judged 'behind a balance of data'
volume=$(sha256sum </dev/vda)
run rollback /dev/vda
same 'foreign: rollback of a moved image is refused' '1|refused 18 moved' "$status|${err% *}"
same 'foreign: a refused rollback leaves the volume' "$volume" "$(sha256sum </dev/vda)"
exit 0
