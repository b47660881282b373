#!/usr/bin/env bash
# find.sh [--any] NAME: prints the path of the program NAME, reiserconv or sample_volume, that is made of the sources as they are here: the
# one in crates/NAME/out, else the one in release/. Where neither is, it builds the former, which takes the kit.
#
# With --any it prints the path of the one in release/ where none can be built, and says so in one line on standard error.
set -euo pipefail

any=
[ "$1" != --any ] || { any=yes; shift; }
name=$1
cd "$(dirname "$(readlink -f "${BASH_SOURCE[0]}")")/.."
# shellcheck source=release/programs.sh
. release/programs.sh
out=crates/$name/out
seen=$out/sources.list

# Looks at the bytes of all sources, and sets $program to a program that is made of them, or to nothing.
look() {
    program=
    now=$(list)
    checksum=$(sum)
    if fits "$out" && { ! command -v rt >/dev/null || grep -qxF "kit $(rt version)" "$out/MADE_OF"; }; then
        program=$out/$name
    elif fits release; then
        program=release/$name
    fi
}

# Notes what was seen, for the next start. Not where something has changed within the last two seconds, since a further change might
# get the same times, and not in a checkout of somebody else's.
note() {
    local newest
    [ -O . ] || return 0
    newest=$(printf '%s\n' "$now" | awk '$1 > newest { newest = $1 } END { printf "%d", newest }')
    [ "$(date +%s)" -gt $((newest + 2)) ] || return 0
    { mkdir -p "$out" && printf '%s\n' "$program" "$now" >"$seen.$$" && mv "$seen.$$" "$seen"; } 2>/dev/null || :
}

# Builds it, where there is the kit.
build_here() {
    if ! command -v rt >/dev/null; then
        [ -n "$any" ] || say 'no program here is made of these sources. To build one takes the kit, with its command rt on the PATH'
        return 1
    fi
    say 'no program here is made of these sources'
    mkdir -p "$out"
    (
        flock 9
        look
        [ -n "$program" ] || build
    ) 9>"$out/.build.lock" || return 1
    look
    [ -n "$program" ] || { say 'the sources changed while it was built: start again'; return 1; }
}

# Takes the program in release/, and says what it is.
take_any() {
    [ -x "release/$name" ] || return 1
    program=release/$name
    if grep -qxF "$name $(sha256sum <"$program" | cut -d ' ' -f 1)" release/MADE_OF 2>/dev/null; then
        say 'this is the program in release/, which was made of other sources than those here'
    else
        say 'this is the program in release/, and it is not the one that release/MADE_OF tells of'
    fi
}

if ! { read -r program <"$seen" && { echo "$program"; list; } | cmp -s - "$seen"; } 2>/dev/null; then
    look
    if [ -n "$program" ] || build_here; then
        note
    elif [ -z "$any" ] || ! take_any; then
        exit 1
    fi
fi
printf '%s/%s\n' "$PWD" "$program"
