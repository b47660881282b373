#!/usr/bin/env bash
# Measures `crc32c` over 64 MiB: the least nanoseconds of ten runs, and bytes for each second. It makes a program of its own
# in a folder of its own, over copies of `castagnoli` and `vol_block`, since the repository has no use for it, and builds it as
# the gate builds programs.
set -euo pipefail

top=$(cd "$(dirname "$(readlink -f "${BASH_SOURCE[0]}")")/.." && pwd)
work=$(mktemp -d)
trap 'rm -rf "$work"' EXIT
mkdir -p "$work/crates/crc_bench/src"
for name in vol_block castagnoli; do
    mkdir "$work/crates/$name"
    cp -r "$top/crates/$name/src" "$top/crates/$name/specs" "$top/crates/$name/proofs" "$work/crates/$name"
done
cat >"$work/crates.txt" <<'TXT'
vol_block: byteorder
castagnoli: byteorder vol_block
crc_bench: castagnoli
TXT
cat >"$work/crates/crc_bench/src/main.rt" <<'RT'
#![tactic(auto)]

use castagnoli::crc32c;
use std::io;
use std::time::Instant;

fn main(rt: HostRuntime) -> io::Result<()> {
    let mut bytes = Vec::new(rt.alloc());
    bytes.resize(1 << 26, 7u8)?;
    for _ in 0..10 {
        let start = Instant::now(&rt)?;
        let sum = crc32c(&bytes);
        let spent = Instant::now(&rt)?.duration_since(start);
        println!(rt; "{} {}", spent.as_nanos(), sum)?;
    }
    Ok(())
}
RT
cd "$work/crates/crc_bench"
rt run >"$work/times" 2>"$work/errors" || { cat "$work/errors" >&2; exit 1; }
grep -E '^[0-9]+ [0-9]+$' "$work/times" | sort -n | head -1 | {
    read -r least sum
    printf 'crc32c of 64 MiB: %s ns, %s MB a second (%08x)\n' "$least" $((67108864 * 1000 / least)) "$sum"
}
