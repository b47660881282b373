#!/usr/bin/env bash
# deb.sh [FOLDER [PROGRAM]]: makes a Debian package of the program, with the manual page, the documents for users and bash completion, puts
# it into FOLDER (packaging/out), and prints its path. PROGRAM is the one of these sources (release/find.sh), to the byte; one that the kit built
# here is made into one that needs no C library of the machine first (release/static.py). The same commit gives the same package.
set -euo pipefail

top=$(cd "$(dirname "$(readlink -f "${BASH_SOURCE[0]}")")/.." && pwd)
to=$(mkdir -p "${1:-$top/packaging/out}" && cd "${1:-$top/packaging/out}" && pwd)
program=${2:-$("$top/release/find.sh" reiserconv)}
work=$(mktemp -d)
trap 'rm -rf "$work"' EXIT
if [ "$(od -An -tu1 -j 16 -N 1 "$program")" -eq 3 ]; then
    "$top/release/static.py" "$program" "$work/program"
    program=$work/program
fi
version=$("$program" --version | sed 's/^reiserconv //')
maintainer='Fernonyx maintainers <maintainers@users.noreply.fernonyx.example>'
root=$work/reiserconv
docs=$root/usr/share/doc/reiserconv
# the time of the commit, or of the last change of a document where git can't tell
SOURCE_DATE_EPOCH=$(git -C "$top" log -1 --format=%ct 2>/dev/null || find "$top/docs" "$top/packaging" -maxdepth 1 -type f -printf '%Ts\n' | sort -n | tail -1)
export SOURCE_DATE_EPOCH
umask 022

# put MODE FROM TO: a file of the package
put() { install -D -m "$1" "$2" "$root/$3"; }

put 755 "$program" usr/sbin/reiserconv
put 644 "$top/packaging/completion.bash" usr/share/bash-completion/completions/reiserconv
sed "s/^\.Os$/.Os reiserconv $version/" "$top/docs/reiserconv.8" >"$work/reiserconv.8"
put 644 "$work/reiserconv.8" usr/share/man/man8/reiserconv.8
gzip -9n "$root/usr/share/man/man8/reiserconv.8"
for file in HOWTO.md REFUSALS.md PROVED.md; do put 644 "$top/docs/$file" "usr/share/doc/reiserconv/$file"; done
put 644 "$top/CHANGELOG.md" usr/share/doc/reiserconv/CHANGELOG.md
put 644 "$top/packaging/copyright" usr/share/doc/reiserconv/copyright

{
    printf 'reiserconv (%s) unstable; urgency=medium\n\n' "$version"
    printf '  * %s\n    %s\n' 'It has the commands inspect, list, convert, recover, rollback and trial:' 'reiserconv(8) describes them.'
    printf '  * %s\n    %s\n    %s\n' 'HOWTO.md beside this file is a guide for the conversion of a volume,' \
        'REFUSALS.md says what each line on standard error means and what to do,' 'and PROVED.md what is proved.'
    printf '  * %s\n\n' 'CHANGELOG.md beside this file says what has changed since earlier versions.'
    printf ' -- %s  %s\n' "$maintainer" "$(date -Ru -d "@$SOURCE_DATE_EPOCH")"
} >"$docs/changelog"
gzip -9n "$docs/changelog"

# it has its C library in it, so that it runs on any Linux
echo 'reiserconv: statically-linked-binary [usr/sbin/reiserconv]' >"$work/overrides"
put 644 "$work/overrides" usr/share/lintian/overrides/reiserconv

mkdir "$root/DEBIAN"
cat >"$root/DEBIAN/control" <<CONTROL
Package: reiserconv
Version: $version
Section: admin
Priority: optional
Architecture: amd64
Maintainer: $maintainer
Installed-Size: $(du -sk --apparent-size --exclude=DEBIAN "$root" | cut -f 1)
Built-Using: musl (= 1.2.3-1)
Recommends: btrfs-progs, reiserfsprogs
Description: convert a ReiserFS volume to Btrfs in place, and back
 Linux has dropped ReiserFS. This program turns a clean, unmounted volume of
 ReiserFS 3.6 into one of Btrfs where it lies. The data of files stays where
 it is, and the old volume is kept in a file of the new one.
 .
 What the program does is proved; the documents say exactly what, and what is
 only tested.
CONTROL
(cd "$root" && find usr -type f -print0 | LC_ALL=C sort -z | xargs -0 md5sum >DEBIAN/md5sums)
find "$root" -exec touch -h -d "@$SOURCE_DATE_EPOCH" {} +
package=$to/reiserconv_${version}_amd64.deb
dpkg-deb --root-owner-group -Zxz --build "$root" "$package" >/dev/null
echo "$package"
