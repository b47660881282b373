#!/usr/bin/env bash
# make.sh: runs `rt ci`, and puts the programs that it built into release/, for machines without the kit and of any C library (release/static.py):
#
#     reiserconv, sample_volume    the programs
#     SHA256SUMS                   their SHA-256, which `sha256sum -c` compares
#     MADE_OF                      what they were made of: the commit, the kit, one checksum over all sources, the SHA-256 of both programs, of the C
#                                  library in them (c/library.o) and of what `rt ci` built (built), and what they need
#
# make.sh --check: says whether the ones in release/ are made of the programs that the last `rt ci` here built, to the byte, and of the sources
# as they are. The status is 1 where they are not.
#
# make.sh --remove: removes what an earlier `rt ci` built, so that a check after the next one sees that one's programs.
set -euo pipefail

cd "$(dirname "$(readlink -f "${BASH_SOURCE[0]}")")/.."
# shellcheck source=release/programs.sh
. release/programs.sh
names=(reiserconv sample_volume)

# Has the gate make each program anew.
make_all() {
    local made
    checksum=$(sum)
    remove_all
    rt ci
    made=$(sum)
    [ "$made" = "$checksum" ] || { echo 'release/make.sh: the sources changed meanwhile' >&2; exit 1; }
}

# Removes what an earlier run of the gate built.
remove_all() {
    for name in "${names[@]}"; do
        rm -f "crates/$name/out/$name"
    done
}

# sum_of FILE: its SHA-256
sum_of() { sha256sum <"$1" | cut -d ' ' -f 1; }

check_all() {
    local status=0
    checksum=$(sum)
    for name in "${names[@]}"; do
        if ! release/static.py "crates/$name/out/$name" "$room/$name" || ! cmp "release/$name" "$room/$name"; then
            status=1
        elif ! fits release || ! grep -qxF "built $name $(sum_of "crates/$name/out/$name")" release/MADE_OF; then
            echo "release/$name is of other sources than these, by release/MADE_OF"
            status=1
        fi
    done
    if [ $status = 0 ]; then
        echo 'the programs in release/ are those of these sources'
    else
        echo 'run release/make.sh in a checkout of a commit, and commit what it puts into release/'
    fi
    return $status
}

put_all() {
    for name in "${names[@]}"; do
        release/static.py "crates/$name/out/$name" "$room/$name"
    done
    for name in "${names[@]}"; do
        # a program that runs cannot be written over
        cp "$room/$name" "release/$name.new"
        mv "release/$name.new" "release/$name"
    done
    (cd release && sha256sum "${names[@]}" >SHA256SUMS)
    {
        printf 'commit %s\nkit %s\nsources %s\n' "$(git rev-parse HEAD)" "$(rt version)" "$checksum"
        for name in "${names[@]}"; do printf '%s %s\n' "$name" "$(sum_of "release/$name")"; done
        for name in "${names[@]}"; do printf 'built %s %s\n' "$name" "$(sum_of "crates/$name/out/$name")"; done
        printf 'library %s\nneeds Linux 3.2 x86-64-v2\n' "$(sum_of release/c/library.o)"
    } >release/MADE_OF
    cat release/MADE_OF
}

room=$(mktemp -d)
trap 'rm -rf "$room"' EXIT
case "${1:-}" in
    --check) check_all ;;
    --remove) remove_all ;;
    '')
        mapfile -t places < <(sources)
        places+=(release/static.py release/c)
        if [ -n "$(git status --porcelain -- "${places[@]}")" ]; then
            echo 'release/make.sh: the sources, or what links the programs, are not those of a commit' >&2
            exit 1
        fi
        make_all
        put_all
        ;;
    *)
        echo 'usage: release/make.sh [--check | --remove]' >&2
        exit 2
        ;;
esac
