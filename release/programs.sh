# shellcheck shell=bash
# What the programs are made of, and how they are built. release/find.sh and release/make.sh read this file at the top of the
# repository, and set $name, a program, and $checksum, that of the sources.
# shellcheck disable=SC2154

# What is looked at to tell whether a program is made of the sources as they are: the crates of both programs, with all that stands
# below them, and what rules their build. Wrong bodies are no part of a program.
sources() {
    crates_of reiserconv sample_volume | sed 's|^|crates/|'
    printf '%s\n' crates.txt HANDLES
}

# crates_of CRATE..: these crates of crates.txt and those below them, each behind all that it uses, which is the order of the build
crates_of() {
    awk -v asked="$*" '
        function go(crate, below, count, i) {
            if (crate in gone || !(crate in uses)) return
            gone[crate]
            count = split(uses[crate], below, " ")
            for (i = 1; i <= count; i++) go(below[i])
            print crate
        }
        /^[a-z]/ { crate = $1; sub(/:$/, "", crate); $1 = ""; uses[crate] = $0 }
        END { count = split(asked, names, " "); for (i = 1; i <= count; i++) go(names[i]) }' crates.txt
}

# sources_as ACTION..: find over all files of the sources
sources_as() {
    local places
    # no <(..), which needs /proc
    sources | { mapfile -t places && find "${places[@]}" \( -name out -o -name must-fail \) -prune -o -type f "$@"; }
}

# A line for each source, for the kit's command, and for the programs that may be run: the time of the last change of any kind,
# which no program can set, the time of the last write, the number, the size and the path. Where all lines are the same, nothing
# has changed.
list() {
    local form='%C@ %T@ %i %s %p\n' kit
    kit=$(command -v rt) && find -L "$kit" -printf "$form"
    find "crates/$name/out/$name" "crates/$name/out/MADE_OF" release -maxdepth 1 -type f -printf "$form" 2>/dev/null || :
    sources_as -printf "$form" | LC_ALL=C sort
}

# The checksum of the sources: that of a list with the SHA-256 and the path of each.
sum() { sources_as -print0 | LC_ALL=C sort -z | xargs -0 sha256sum | sha256sum | cut -d ' ' -f 1; }

# fits FOLDER: whether the program in a folder is whole, and made of the sources with this checksum
fits() {
    [ -x "$1/$name" ] && grep -qxF "sources $checksum" "$1/MADE_OF" && grep -qxF "$name $(sha256sum <"$1/$name" | cut -d ' ' -f 1)" "$1/MADE_OF"
} 2>/dev/null

# since SECOND: how long ago that was
since() { printf '%s min %s s' $(((SECONDS - $1) / 60)) $(((SECONDS - $1) % 60)); }

say() { printf '%s: %s\n' "$name" "$1" >&2; }

# build: proves and compiles the program into crates/$name/out, and notes beside it what it was made of
build() {
    local out=crates/$name/out log begun=$SECONDS status=1
    say "proving and compiling it: $(crates_of "$name" | wc -l) crates. This takes some minutes where this machine has proved"
    say 'most of them before, and an hour or more from nothing.'
    log=$(mktemp)
    rm -f "$out/MADE_OF"
    progress "$log" >/dev/null &
    # without arguments a program only prints how it is called; that it was run tells that it was built
    (cd "crates/$name" && rt run) >"$log" 2>&1 </dev/null 9>&- || :
    kill $! 2>/dev/null || :
    wait $! 2>/dev/null || :
    [ ! -t 2 ] || printf '\r\033[K' >&2
    if grep -q "^rt: running out/$name" "$log"; then
        made_of "$out" >"$out/MADE_OF.new"
        mv "$out/MADE_OF.new" "$out/MADE_OF"
        say "built in $(since $begun)"
        status=0
    else
        cat "$log" >&2
    fi
    rm -f "$log"
    return $status
}

# made_of FOLDER: the lines that tell what the program there was made of
made_of() { printf 'kit %s\nsources %s\n%s %s\n' "$(rt version)" "$checksum" "$name" "$(sha256sum <"$1/$name" | cut -d ' ' -f 1)"; }

# progress LOG: tells once a second how far a build is, on one line that moves on; where standard error is no terminal, a line for
# each crate that begins
progress() {
    local all begun=$SECONDS said='' crate n functions line
    mapfile -t all < <(crates_of "$name")
    while sleep 1 && kill -0 $$ 2>/dev/null; do
        read -r crate n functions < <(tail -c 20000 "$1" | crate_in_hand "${all[*]}") || continue
        if [ -t 2 ]; then
            line="crate $n of ${#all[@]}: $crate${functions:+, $functions functions}, $(since "$begun")"
            printf '\r%s: %s\033[K' "$name" "$line" >&2
        elif [ "$crate" != "$said" ]; then
            say "crate $n of ${#all[@]}: $crate, after $(since "$begun")"
            said=$crate
        fi
    done
}

# crate_in_hand CRATES: of the end of a log the crate that was named last, its place among these, and how many functions are checked
crate_in_hand() {
    awk -v all="$1" '
        BEGIN { count = split(all, names, " "); for (i = 1; i <= count; i++) place[names[i]] = i }
        /^so far: / { functions = $3 " of " $5; next }
        {
            words = split($0, word, /[^a-z0-9_]+/)
            for (i = 1; i <= words && i <= 6; i++)
                if (word[i] in place) {
                    if (crate != word[i]) functions = ""
                    crate = word[i]
                    break
                }
        }
        END { if (crate != "") print crate, place[crate], functions }'
}
