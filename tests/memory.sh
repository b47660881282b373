#!/usr/bin/env bash
# Refuses allocations, one in each run: the tests of some crates are run on the kit's interpreter and as checked code, and in each run the
# allocation of one number fails in every test. A test may then pass, or end with the error that says so, or with a fault where it was the disk in memory
# that had none; anything else (a panic, an index out of bounds, another error) is a failure. It serves crates whose tests pass errors on. It is no part of
# the gate: each run compiles a crate anew, which takes half a minute.
#
#     tests/memory.sh [CRATE..]          # without words: trees that are built and written, and file items
#     NUMBERS='1 2 3' tests/memory.sh    # other numbers of the allocation that fails
#
# The last line is 'N passed, M failed'.
set -uo pipefail

top=$(cd "$(dirname "$(readlink -f "${BASH_SOURCE[0]}")")/.." && pwd)
crates=("$@")
[ $# -gt 0 ] || crates=(btr_tree_writer_tests file_items_tests)
read -ra numbers <<<"${NUMBERS:-1 2 3 5 8 13 21 34 55 89 144 233}"
passed=0
failed=0
log=$(mktemp)
trap 'rm -f "$log"' EXIT

# one CRATE NUMBER: the tests of the crate with the allocation of this number refused
one() {
    (cd "$top/crates/$1" && rt try --test --fail-alloc "$2" --seconds 120) >"$log" 2>&1
    local ran refused odd
    ran=$(grep -c '^test .* \.\.\. ' "$log")
    refused=$(grep -c -E '^ *error: (Memory|Fault)$' "$log")
    odd=$(grep -c -e 'panicked' -e 'out of bounds' -e 'overflow' -e '^ *error: [^MF]' "$log")
    if [ "$ran" -gt 0 ] && [ "$odd" = 0 ] && [ "$refused" = "$(grep -c '\.\.\. FAILED$' "$log")" ]; then
        passed=$((passed + 1))
        printf '%s, allocation %s: %s tests, %s of them short of memory\n' "$1" "$2" "$ran" "$refused"
    else
        failed=$((failed + 1))
        printf 'FAILED %s, allocation %s\n' "$1" "$2"
        grep -v ' \.\.\. ok$' "$log" | head -20
    fi
}

for crate in "${crates[@]}"; do
    for number in "${numbers[@]}"; do one "$crate" "$number"; done
done
printf '%s passed, %s failed\n' "$passed" "$failed"
[ "$failed" = 0 ]
