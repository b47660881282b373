#!/usr/bin/env bash
# used_volume.sh fresh|aged FILE [MIB]: has Linux make a ReiserFS volume of 256 MiB, or of MIB, and fill it
# (bench/linux/use), in the virtual machine of tests/linux.sh. Since its processor is emulated, an aged one takes ten
# minutes. bench/aged_volume.py makes larger ones in seconds.
set -euo pipefail

top=$(cd "$(dirname "$(readlink -f "${BASH_SOURCE[0]}")")/.." && pwd)
kind=$1
file=$2
script=$(mktemp)
trap 'rm -f "$script"' EXIT
cat >"$script" <<SCRIPT
mkfs.reiserfs -q -f /dev/vda >/dev/null 2>&1 || exit
mount -t reiserfs -o noatime /dev/vda /mnt || exit
perl ./use /mnt $kind || exit
umount /mnt
SCRIPT
rm -f "$file"
truncate -s "${3:-256}M" "$file"
ADD=$top/bench/linux/use "$top/tests/linux/machine" "$script" "$file"
