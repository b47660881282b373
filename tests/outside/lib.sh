# shellcheck shell=bash disable=SC2034,SC2154
# How the checks of tests/outside.sh are counted, what they need, and how they make volumes. The script sets $top, the repository, $work, a
# folder that goes away in the end, and $program, and reads this file before its parts.

passed=0
failed=0

# ---- how a check is counted -----------------------------------------------------------------------------------------

pass() { passed=$((passed + 1)); }

fail() {
    failed=$((failed + 1))
    printf 'FAILED %s\n' "$1"
}

# same NAME EXPECTED FOUND: two texts are the same
same() {
    if [ "$2" = "$3" ]; then pass; else
        fail "$1"
        diff <(printf '%s\n' "$2") <(printf '%s\n' "$3") | head -10
    fi
}

# kept COMMAND..: runs it; its status is in $status, its output in $out and its error line in $err
kept() {
    "$@" >"$work/.out" 2>"$work/.err"
    status=$?
    out=$(cat "$work/.out")
    err=$(cat "$work/.err")
}

# run WORDS..: the same of the program
run() { kept "$program" "$@"; }

# ends NAME STATUS LINE WORDS..: the run prints nothing, and ends with this status and this line
ends() {
    local name=$1 want=$2 line=$3
    shift 3
    run "$@"
    same "$name" "$want|$line|" "$status|$err|$out"
}

# begins NAME STATUS LINE WORDS..: the same, where more may be told behind the line
begins() {
    local name=$1 want=$2 line=$3
    shift 3
    run "$@"
    same "$name" "$want|$line|" "$status|$(head -1 "$work/.err")|$out"
}

# ---- what is needed ---------------------------------------------------------------------------------------------------

need() {
    local tool=$1 package=$2
    command -v "$tool" >/dev/null 2>&1 && return 0
    if [ -z "${updated:-}" ]; then
        apt-get update -qq >/dev/null 2>&1
        updated=yes
    fi
    # another install may be under way
    apt-get -o DPkg::Lock::Timeout=600 install -y -qq "$package" >/dev/null 2>&1
    command -v "$tool" >/dev/null 2>&1
}

# lacks WHAT TOOL: says that checks are skipped, since a tool is not to be had
lacks() {
    echo "skipped: $1, since $2 is not to be had"
    [ "${CI:-}" != true ] || fail "$1: $2 is not to be had"
}

# ---- waiting ----------------------------------------------------------------------------------------------------------

# waits_for COMMAND..: until it ends with status 0, for at most some minutes
waits_for() {
    for _ in {1..1200}; do
        "$@" && return
        sleep 0.1
    done
}

# ---- making and changing volumes -------------------------------------------------------------------------------------

# volume FILE BLOCKS OPTIONS..: a fresh volume of mkfs.reiserfs
volume() {
    local file=$1 blocks=$2
    shift 2
    rm -f "$file"
    truncate -s $((blocks * 4096)) "$file"
    mkfs.reiserfs -q -f "$@" "$file" >/dev/null 2>&1
}

# put FILE BYTE TEXT: writes bytes, in printf's escapes, at a place
put() { printf '%b' "$3" | dd of="$1" bs=1 seek="$2" conv=notrunc status=none; }

super=65536
