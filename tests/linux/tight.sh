#!/bin/sh
# Inside of the machine: volumes on /dev/vda that have the free units which a conversion needs, and so many MiB beside them. The lines that
# begin with # are figures of what the kernel can do on the new volume; /dev/vdb keeps the old one.
# shellcheck source=tests/linux/said.sh
. ./said.sh
beside='16 8 4 2 1 0'
# from so many MiB beside the needed units on the new volume mounts for writing
enough=4

# figures: the free units of the volume, and those that a conversion needs
figures() {
    run inspect /dev/vda
    units=$(sed -n 's/^units //p' /tmp/out)
    needed=$(sed -n 's/^needed //p' /tmp/out)
}

# more COUNT KIB: so many further files of this length on the volume
next=1000
more() {
    mount -t reiserfs -o noatime /dev/vda /mnt
    perl -e 'my ($first, $count, $kib) = @ARGV;
        for my $i ($first .. $first + $count - 1) { open my $out, ">", "/mnt/file-$i" or die $!; print {$out} pack("V", $i) x ($kib * 256) }' "$next" "$1" "$2"
    next=$((next + $1))
    umount /mnt
}

# leaves COUNT: files are added until so many units are free beside the needed ones
leaves() {
    figures
    while surplus=$((units - needed - $1)) && [ $surplus -gt 0 ]; do
        if [ $surplus -gt 2 ]; then more $((surplus - 1)) 1024; else more 1 128; fi
        figures
    done
    [ $surplus = 0 ]
}

# small: how many files of 1000 bytes can be made and synced, up to 1000
small() {
    mkdir /mnt/small 2>/dev/null
    perl -e 'my $i = 0;
        while ($i < 1000) { open my $out, ">", "/mnt/small/$i" or last; print {$out} "x" x 1000 or last; close $out or last; $i++; `sync` if $i % 250 == 0 }
        print $i' 2>/dev/null
    sync
}

# large: how many KiB one file takes, up to 32 MiB
large() {
    dd if=/dev/zero of=/mnt/large bs=64k conv=fsync count=512 2>/dev/null
    echo $(($(stat -c %s /mnt/large 2>/dev/null || echo 0) / 1024))
}

# yes_no COMMAND..: whether it succeeds
yes_no() { if "$@" >/dev/null 2>&1; then echo yes; else echo no; fi; }

# tried COUNT: a line of figures; whether the volume mounts for writing
tried() {
    if ! mount -t btrfs -o noatime /dev/vda /mnt 2>/dev/null; then
        echo "# tight: $1 MiB beside: no mount for writing ($(dmesg -c | sed -n 's/.*\(BTRFS.*-28\).*/\1/p' | tail -n 1))"
        return 1
    fi
    line="a file of $(large) KiB, removed $(yes_no rm /mnt/large), $(small) small files, removed $(yes_no rm -rf /mnt/small)"
    line="$line, the saved image removed $(yes_no btrfs subvolume delete -c /mnt/reiserfs_saved), files of before removed $(yes_no sh -c 'rm /mnt/file-100* && sync')"
    btrfs subvolume sync /mnt >/dev/null
    echo "# tight: $1 MiB beside: mounts for writing, $line, then a file of $(large) KiB"
    umount /mnt
}

mkfs.reiserfs -q -f -s 513 /dev/vda >/dev/null 2>&1
more 2 300
for count in $beside; do
    leaves "$count"
    said "tight: $count MiB beside the $needed that are needed" $?
    cp /dev/vda /dev/vdb
    seen reiserfs /dev/vda /tmp/before
    run convert /dev/vda
    same "tight: $count MiB beside: it converts" '0|' "$status|$err"
    checked "tight: $count MiB beside: btrfs check finds nothing"
    seen btrfs /dev/vda /tmp/after
    same_file "tight: $count MiB beside: Linux sees the same" /tmp/before /tmp/after
    tried "$count"
    mounted=$?
    [ "$count" -lt $enough ] || said "tight: $count MiB beside: it mounts for writing" $mounted
    checked "tight: $count MiB beside: btrfs check finds nothing behind it"
    if [ $mounted != 0 ]; then
        run rollback /dev/vda
        same "tight: $count MiB beside: it goes back" '0|' "$status|$err"
    fi
    cp /dev/vdb /dev/vda
done
more 1 1024
run convert /dev/vda
same 'tight: with a unit less it is refused' '6|refused 15 space' "$status|${err% * * * *}"
exit 0
