#!/usr/bin/env bash
# Times the crate ns_aes_cmac beside a four-table AES in plain Rust (aes.rs), which is compiled here by rustc -O.
# Both do the same work: `block` and `back` are one block after another, `pair` is two side by side, `key_and_block` is a key
# schedule and a block, `mic` is the MIC of a frame of 51 bytes (B0 and 47 signed bytes) with its key schedule, and
# `mic_expanded` is that without. Each time is the least of many short measurements, in nanoseconds.
set -euo pipefail
here=$(cd "$(dirname "$0")" && pwd)
work=$(mktemp -d)
trap 'rm -rf "$work"' EXIT
rustc --edition 2021 -O -o "$work/table" "$here/aes.rs"
program="$work/bench_times"
"$here/times.sh" "$program"
for _ in 1 2 3; do
    "$program" aes > "$work/values" 2>> "$work/proved"
    "$work/table" > "$work/table_values" 2>> "$work/rust"
done
if grep -vxFf "$work/values" "$work/table_values"; then
    echo "the two programs differ in these values"
    exit 1
fi
least() { sort -k1,1 -k2,2n "$1" | awk '!seen[$1]++ {print $1, $2}' | sort -k1,1; }
join -a 1 -e - -o 0,1.2,2.2 <(least "$work/proved") <(least "$work/rust") | awk '
    BEGIN { printf "%-14s %10s %10s %8s\n", "", "proved ns", "table ns", "ratio" }
    { printf "%-14s %10s %10s %8s\n", $1, $2, $3, ($3 == "-" ? "-" : sprintf("%.2f", $2 / $3)) }
    $1 == "block" { printf "%-14s %10.0f %10.0f\n", "blocks/s", 1e9 / $2, 1e9 / $3 }
    $1 == "mic" { printf "%-14s %10.0f %10.0f\n", "MICs/s", 1e9 / $2, 1e9 / $3 }
    $1 == "pair" { printf "%-14s %10.0f\n", "cipher bytes/s", 32e9 / $2 }'
