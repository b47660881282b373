# shellcheck shell=dash disable=SC2154
# Inside of the machine: one sector of the disk can't be written, while another process holds the device open, so that the kernel keeps what it has of
# it. /dev/vda has the volume. /dev/vdb and /dev/vdc are the same disk, but a write to block 16 fails in the one, and in the other a write to block
# 16384, where the first copy of a Btrfs superblock belongs. /dev/vde is the same disk too, where the first write to block 16384 fails and no other.
# /dev/vdd keeps a volume from before.
# shellcheck source=tests/linux/said.sh
. ./said.sh

# kept FROM TO: a disk is written over another one, and nothing that the kernel had of either stays
kept() {
    dd if="$1" of="$2" bs=1M conv=fsync 2>/dev/null
    echo 3 >/proc/sys/vm/drop_caches
}

# listed DISK NAME: what the kernel keeps is dropped, and list prints the rows from before
listed() {
    echo 3 >/proc/sys/vm/drop_caches
    run list "$1"
    [ "$status|$err" = '0|' ] || wrong="$wrong, list $2 ended with $status $err"
    cmp -s /tmp/before /tmp/out || wrong="$wrong, list $2 prints other rows"
}

# meets COMMAND DISK WHERE FORMAT FIRST TOLD: the command meets the sector of that disk, and the volume is one of this format then. While the other
# process still holds the disk open, recover reads what lies on it: it ends with status FIRST, and 3 says that it wrote the sector in vain. The recover
# behind it, on a disk that can be written, tells TOLD.
meets() {
    wrong=''
    kept /dev/vdd /dev/vda
    exec 9<"$2"
    run "$1" "$2"
    [ "$status|$(head -n 1 /tmp/err)" = '3|device fault' ] || wrong="$wrong, it ended with $status $err"
    run recover "$2"
    [ "$status" = "$5" ] || wrong="$wrong, recover on the sector ended with $status $err"
    listed "$2" 'on the sector'
    exec 9<&-
    echo 3 >/proc/sys/vm/drop_caches
    run recover /dev/vda
    [ "$status|$err|$(paste -sd ' ' /tmp/out)" = "0||volume is $4 mirrors $6" ] || wrong="$wrong, recover ended with $status $err and $(paste -sd ' ' /tmp/out)"
    behind /dev/vda "$4"
    if [ -z "$wrong" ]; then echo "ok failing: $1, $3: recover ended with $5 on it, and then told of mirrors $6"; else echo "FAILED failing: $1, $3$wrong"; fi
}

# behind DISK FORMAT: what is so behind a recover that ended well
behind() {
    listed "$1" 'behind recover'
    run recover "$1"
    [ "$(paste -sd ' ' /tmp/out)" = "volume is $2 mirrors 0" ] || wrong="$wrong, recover again says $(cat /tmp/out)"
    super_of "$1" /tmp/super
    [ "$2" != reiserfs ] || cmp -s /tmp/super.reiserfs /tmp/super || wrong="$wrong, block 16 is not that of before"
}

# mends DISK: the copy of the superblock fails to be written by convert, once. While the other process still holds the disk open, so that the kernel
# keeps the block that it wrote in vain, recover finds that the copy is not on the disk, and writes it.
mends() {
    wrong=''
    kept /dev/vdd /dev/vda
    exec 9<"$1"
    run convert "$1"
    [ "$status|$(head -n 1 /tmp/err)" = '3|device fault' ] || wrong="$wrong, convert ended with $status $err"
    dd if="$1" bs=4096 skip=16384 count=1 2>/dev/null | cmp -s - /tmp/data && wrong="$wrong, the kernel does not keep what was written in vain"
    run recover "$1"
    [ "$status|$err|$(paste -sd ' ' /tmp/out)" = '0||volume is btrfs mirrors 1' ] || wrong="$wrong, recover ended with $status $err and $(paste -sd ' ' /tmp/out)"
    exec 9<&-
    behind "$1" btrfs
    if [ -z "$wrong" ]; then echo 'ok failing: a copy that failed once is mended by recover'; else echo "FAILED failing: a copy that failed once$wrong"; fi
}

# What lies in block 16384 is a file: the disk is filled with files, and those that don't lie there are removed.
large() { head -c 2097152 /dev/zero >"$1"; }
large_file() {
    mount -t reiserfs -o noatime,attrs /dev/vda /mnt && mkdir /mnt/large || return
    (cd /mnt/large && i=0 && while large "$i" 2>/dev/null; do i=$((i + 1)); done; sync
        perl -e 'for my $name (<*>) {
            open my $file, "<", $name or die;
            my $has = 0;
            for my $n (0 .. (-s $file) / 4096) { my $block = pack "i", $n; $has = 1 if ioctl($file, 1, $block) && unpack("i", $block) == 16384; }
            unlink $name unless $has;
        }')
    umount /mnt
}

filled /dev/vda few
said 'failing: filled' $?
large_file
said 'failing: filled with large files, of which one is left' $?
perl -e 'seek STDIN, 17 * 4096, 0; read STDIN, my $bits, 4096; exit !vec $bits, 16384, 1' </dev/vda
said 'failing: the block of the first copy is used' $?
many_objects /dev/vda
said "failing: $numbers numbers in the map of objects" $?
super_of /dev/vda /tmp/super.reiserfs
run list /dev/vda
cp /tmp/out /tmp/before
said "failing: listed, $(wc -l </tmp/before) paths" "$status"
kept /dev/vda /dev/vdd
dd if=/dev/vda of=/tmp/data bs=4096 skip=16384 count=1 2>/dev/null
meets convert /dev/vdb 'block 16' reiserfs 0 0
meets convert /dev/vdc 'the copy' btrfs 3 1
mends /dev/vde
kept /dev/vdd /dev/vda
run convert /dev/vda
same 'failing: a volume that is converted' '0|' "$status|$err"
kept /dev/vda /dev/vdd
meets rollback /dev/vdb 'block 16' btrfs 3 1
meets rollback /dev/vdc 'a block of the old volume' btrfs 0 0
exit 0
