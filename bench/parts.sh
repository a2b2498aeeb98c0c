#!/bin/sh
# Measures the held map against std's BTreeMap in the same run, where no old map is kept and where one is kept for each batch of
# 100 puts, and writing and reading frames of 100 deltas.
set -eu
top=$(CDPATH='' cd -- "$(dirname -- "$0")/.." && pwd)
program=$top/crates/ty_bench/out/ty_bench
[ -x "$program" ] || { echo "build the program first: cd crates/ty_bench && rt run" >&2; exit 1; }
for keys in 10000 1000000; do
    for batch in 0 100; do
        "$program" puts 1000000 "$keys" "$batch" | awk '{ print $0 ", ratio", sprintf("%.2f", $11 / $8) }'
    done
done
"$program" frames 10000 | awk '
    { print }
    { n = $2; b = $4; w = $8; r = $13 }
    END {
        printf "writing %.0f frames/s, %.0f MB/s; reading %.0f frames/s, %.0f MB/s\n", n / w * 1e6, b / w, n / r * 1e6, b / r
    }'
