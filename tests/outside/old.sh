# shellcheck shell=bash disable=SC2154
# The programs in release/ on other systems than this one: where there is nothing but them, on an old Linux, in an old Debian, and without much
# memory. tests/outside.sh reads this file, and sets $top, $work, $version and what `kept` tells.

# everywhere NAME COMMAND..: all that both programs do, as COMMAND starts one of them by its path, in the folder `system` or with that as the root
everywhere() {
    local name=$1
    shift
    cp "$top/samples/tiny.img" system/volume
    run inspect system/volume
    cp "$work/.out" inspected
    run list system/volume
    cp "$work/.out" listed
    in_system "$@" ./reiserconv --version
    same "$name: the version" "0||reiserconv $version" "$status|$err|$out"
    in_system "$@" ./reiserconv inspect volume
    same "$name: inspect" '0||same' "$status|$err|$(cmp -s inspected "$work/.out" && echo same)"
    in_system "$@" ./reiserconv list volume
    same "$name: list" '0||same' "$status|$err|$(cmp -s listed "$work/.out" && echo same)"
    in_system "$@" ./reiserconv convert volume
    same "$name: convert" '0||converted to btrfs' "$status|$err|${out%%$'\n'*}"
    in_system "$@" ./reiserconv recover volume
    same "$name: recover" '0||volume is btrfs' "$status|$err|${out%%$'\n'*}"
    in_system "$@" ./reiserconv list volume
    same "$name: list of what was converted" '0||same' "$status|$err|$(cmp -s listed "$work/.out" && echo same)"
    in_system "$@" ./reiserconv rollback volume
    same "$name: rollback" '0||rolled back to reiserfs' "$status|$err|${out%%$'\n'*}"
    in_system "$@" ./reiserconv list volume
    same "$name: list of what was rolled back" '0||same' "$status|$err|$(cmp -s listed "$work/.out" && echo same)"
    in_system "$@" ./reiserconv inspect nothing
    same "$name: no such file" '3|device fault|' "$status|$err|$out"
    rm -f system/volume system/scratch
    truncate -s 256M system/scratch
    in_system "$@" ./reiserconv trial 5 scratch
    same "$name: trial" '0||same blocks' "$status|$err|${out##*$'\n'}"
    rm system/scratch
    truncate -s 48M system/scratch
    in_system "$@" ./sample_volume 100 12288 scratch
    same "$name: sample_volume" '0|' "$status|$err"
    in_system "$@" ./reiserconv list scratch
    same "$name: list of the sample" '0||102' "$status|$err|$(wc -l <"$work/.out")"
    rm system/scratch
}

in_system() {
    cd system || return
    kept "$@"
    cd "$work" || return
}

# put_programs: both programs of release/ in `system`
put_programs() { cp "$top/release/reiserconv" "$top/release/sample_volume" system/; }

# A system with nothing but the programs, and /dev/null: no C library, no loader, no /proc, no shell
empty_system() {
    if [ "$(id -u)" != 0 ]; then
        echo 'skipped: the programs in an empty system, since only root can change the root'
        return
    fi
    mkdir -p system/dev
    mknod -m 666 system/dev/null c 1 3 2>/dev/null || : >system/dev/null
    put_programs
    everywhere 'an empty system' chroot .
    rm -r system
}

# Linux 3.2, as far as its calls tell
old_linux() {
    need python3 python3 || { lacks 'the programs on an old Linux' python3; return; }
    if ! "$top/tests/outside/old_linux.py" "$(type -P true)" 2>/dev/null; then
        echo 'skipped: the programs on an old Linux, since calls can not be filtered here'
        return
    fi
    mkdir system
    put_programs
    everywhere 'Linux 3.2' "$top/tests/outside/old_linux.py"
    rm -r system
}

# debian RELEASE: puts a Debian of that name into `system`, and keeps it for later runs
debian() {
    local tarball=${XDG_CACHE_HOME:-$HOME/.cache}/reiserconv/debian-$1.tar
    if [ ! -e "$tarball" ]; then
        debootstrap --variant=minbase "$1" system http://deb.debian.org/debian >debootstrap.log 2>&1 || return
        mkdir -p "$(dirname "$tarball")"
        tar -C system --exclude=./dev --exclude=./var/cache -cf "$tarball.$$" . && mv "$tarball.$$" "$tarball"
        rm -rf system
    fi
    mkdir system
    tar -C system -xf "$tarball"
}

# The oldest Debian that Debian's servers still have. There is no /proc in it, nor a device but one.
old_debian() {
    local release=bullseye
    if [ "$(id -u)" != 0 ]; then
        echo 'skipped: the programs in an old Debian, since only root can change the root'
        return
    fi
    need debootstrap debootstrap || { lacks 'the programs in an old Debian' debootstrap; return; }
    if debian $release; then
        mkdir -p system/dev
        mknod -m 666 system/dev/null c 1 3
        put_programs
        everywhere "Debian's $release" chroot .
        put_checkout system/checkout
        in_system chroot . /checkout/reiserconv --version
        same "./reiserconv in Debian's $release" "0||reiserconv $version" "$status|$err|$out"
    else
        echo "skipped: the programs in Debian's $release, which is not to be had: $(tail -n 1 debootstrap.log)"
    fi
    rm -rf system
}

# Where memory is short the system refuses some, and the program says so
little_memory() {
    cp "$top/samples/tiny.img" small.img
    kept bash -c 'ulimit -v 1500 && exec "$@"' - "$top/release/reiserconv" convert small.img
    same 'little memory' '4|out of memory|' "$status|$err|$out"
    run list "$top/samples/tiny.img"
    cp "$work/.out" listed
    run list small.img
    same 'little memory, and the volume has what it had' '0||same' "$status|$err|$(cmp -s listed "$work/.out" && echo same)"
    rm small.img
}

# The functions of C in the programs are those of musl and of release/c/start.c, where the kit and this version of musl are
c_library() {
    command -v rt >/dev/null || { echo 'skipped: whether release/c/library.o is made of musl, which takes the kit'; return; }
    need musl-gcc musl-tools || { lacks 'whether release/c/library.o is made of musl' musl-tools; return; }
    kept "$top/release/c/library.sh" --check
    if [ "$status" = 3 ]; then
        echo "skipped: whether release/c/library.o is made of musl: $err"
    else
        same 'release/c/library.o is made of start.c and musl' '0|' "$status|$err"
    fi
    same 'release/MADE_OF has the sum of release/c/library.o' "library $(sha256sum <"$top/release/c/library.o" | cut -d ' ' -f 1)" "$(grep '^library ' "$top/release/MADE_OF")"
}

other_systems() {
    empty_system
    old_linux
    old_debian
    little_memory
    c_library
}
