#!/usr/bin/env bash
# library.sh: makes library.o, the C library that release/static.py puts into the programs: start.c and functions of musl, as Debian's package
# musl-dev has them. It takes the kit, whose compiler and linker it uses, and the package.
#
# library.sh --check: compares it with library.o, to the byte. The status is 1 where they differ, and 3 where the kit or this version of the package
# is not there.
set -euo pipefail

cd "$(dirname "$(readlink -f "${BASH_SOURCE[0]}")")"
wanted=1.2.3-1
musl=/usr/lib/x86_64-linux-musl
headers=/usr/include/x86_64-linux-musl

# Functions that a program which the kit builds may call. Those that it does not call are left out of it.
calls=(
    __cxa_finalize __errno_location __sysv_signal __xpg_strerror_r chdir chmod chown clock_gettime close environ fchmod fchown fcntl
    fdatasync flock free fstat fstatat fsync ftruncate futimens getcwd getdents64 getegid getenv geteuid getgid getpid getuid ioctl isatty lchown
    link lseek lstat malloc memchr memcmp memcpy memmove memset mkdir nanosleep open openat posix_fadvise pread pwrite read readlink
    realloc realpath rename rmdir stat strlen symlink sysconf unlink write writev
)

without() { echo "library.sh: $1" >&2; exit 3; }

kit=$(command -v rt) || without 'the kit is not there, with its command rt on the PATH'
tools=$(dirname "$(readlink -f "$kit")")/../toolchain/bin
found=$(dpkg-query -W -f '${Version}' musl-dev 2>/dev/null) || without 'the package musl-dev is not installed'
[ "$found" = $wanted ] || without "the package musl-dev is of version $found, not $wanted"
work=$(mktemp -d)
trap 'rm -rf "$work"' EXIT
"$tools/clang" --target=x86_64-linux-musl -nostdinc -isystem $headers -std=c11 -O2 -Wall -Wextra -Werror -ffreestanding -fno-pic -ffunction-sections \
    -fno-asynchronous-unwind-tables -fcf-protection=none -c start.c -o "$work/start.o"
"$tools/ld.lld" -r --build-id=none -o "$work/library.o" $musl/crt1.o "$work/start.o" "${calls[@]/#/--undefined=}" $musl/libc.a
if [ "${1:-}" = --check ]; then
    cmp "$work/library.o" library.o
else
    cp "$work/library.o" library.o
fi
