# shellcheck shell=dash disable=SC2154
# Inside of the machine: the power is cut at moments of a command, which are numbered from first to last; command, first and last are set
# before. /dev/vda has the volume on which the command starts, /dev/vdb takes the log of its writes, and /dev/vdc all that is written over
# the volume while it is tried: /dev/dm-0 is the volume with that over it.
# shellcheck source=tests/linux/said.sh
. ./said.sh
sectors=$(cat /sys/class/block/vda/size)

# logged WORD: a command runs over a device that logs each of its writes. Block 16 of what it leaves is kept, by the format.
logged() {
    begun /dev/vdc
    echo "0 $sectors log-writes /dev/dm-0 /dev/vdb" | device log
    run "$1" /dev/dm-1
    same "power: $1 with a log of its writes" '0|' "$status|$err"
    dmsetup remove log --noudevsync --noudevrules
    if [ "$1" = convert ]; then super_of /dev/dm-0 /tmp/super.btrfs; fi
    echo "# power: $1 writes blocks between its flushes: $(perl /job/replay /dev/vdb count)"
}

# halfway WORD: the volume is one on which a command has not come to its last writes
halfway() {
    logged "$1"
    dmsetup remove tried --noudevsync --noudevrules
    perl /job/replay /dev/vdb halfway /dev/vda
    said "power: a volume that $1 has left half way" $?
}

converted() {
    run convert /dev/vda
    same 'power: a volume that is converted' '0|' "$status|$err"
    super_of /dev/vda /tmp/super.btrfs
}

# whole NAME: behind the cut recover and list are done, block 16 is that of the format in all its bytes, and the kernel mounts what is there and sees
# the tree from before; a rollback that was cut off is done again
whole() {
    wrong=''
    run recover /dev/dm-0
    [ "$status|$err" = '0|' ] || wrong="$wrong, recover ended with $status $err"
    format=$(sed -n 's/^volume is //p' /tmp/out)
    left="$left $format"
    mirrors=$(sed -n 's/^mirrors //p' /tmp/out)
    super_of /dev/dm-0 /tmp/super
    cmp -s "/tmp/super.$format" /tmp/super || wrong="$wrong, block 16 is torn"
    listed ''
    if mount -t "$format" -o "$(options "$format")" /dev/dm-0 /mnt; then
        perl /job/rows /mnt "$format" >/tmp/after
        cmp -s /tmp/before /tmp/after || wrong="$wrong, Linux sees other rows"
        umount /mnt
    else
        wrong="$wrong, it does not mount"
    fi
    if [ "$command $format" = 'rollback btrfs' ]; then
        run rollback /dev/dm-0
        [ "$status|$err" = '0|' ] || wrong="$wrong, rollback again ended with $status $err"
        listed ' behind rollback again'
    fi
    ! quiet '' | grep -q FAILED || wrong="$wrong, the kernel complains of $(head -n 3 /tmp/complaints)"
    if [ -z "$wrong" ]; then echo "ok $1: $format, mirrors $mirrors"; else echo "FAILED $1: $format$wrong"; fi
}

# listed WHEN: list prints the rows from before
listed() {
    run list /dev/dm-0
    [ "$status|$err" = '0|' ] || wrong="$wrong, list$1 ended with $status $err"
    cmp -s /tmp/before /tmp/out || wrong="$wrong, list$1 prints other rows"
}

# cuts FIRST LAST: the power is cut at these moments of the command
cuts() {
    logged "$command"
    number=$1
    while [ "$number" -le "$2" ]; do
        begun /dev/vdc
        moment=$(perl /job/replay /dev/vdb "$number" /dev/dm-0) || moment=none
        whole "power: $command, cut $number, $moment"
        number=$((number + 1))
    done
    dmsetup remove tried --noudevsync --noudevrules
}

filled /dev/vda few
said 'power: filled' $?
many_objects /dev/vda
said "power: $numbers numbers in the map of objects" $?
super_of /dev/vda /tmp/super.reiserfs
seen reiserfs /dev/vda /tmp/before
status=$?
said "power: looked at, $(wc -l </tmp/before) paths" $status
left=''
case $command in
    convert) cuts "$first" "$last" ;;
    rollback) converted && cuts "$first" "$last" ;;
    recover)
        cp --sparse=always /dev/vda /tmp/volume
        middle=$(((first + last) / 2))
        halfway convert && cuts "$first" "$middle"
        cp /tmp/volume /dev/vda
        converted && halfway rollback && cuts $((middle + 1)) "$last"
        ;;
esac
same "power: behind the cuts of $command both formats were met" 'btrfs reiserfs' "$(printf '%s\n' "$left" | tr ' ' '\n' | sort -u | xargs)"
exit 0
