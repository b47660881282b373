# shellcheck shell=bash disable=SC2034
# Begins a measurement, for the scripts that read this file: the top of the repository in $top, a folder $work that goes away in the
# end, and the program in $program: that of $RECONV where it is set, else the one of the repository, built if it has to be.
set -euo pipefail

top=$(cd "$(dirname "$(readlink -f "${BASH_SOURCE[0]}")")/.." && pwd)
work=$(mktemp -d)
trap 'rm -rf "$work"' EXIT
program=${RECONV:-$("$top/release/find.sh" reiserconv)}
