#!/usr/bin/env bash
# Measures the chain: one publisher of breadcrumbs of 100 puts each, beside 1, 8 and 64 followers in threads that step to
# the end. To read it: seconds of the wall clock, the best of three runs; publications and steps a second over that time.
# A run with one follower is mostly the publisher's work.
set -euo pipefail
top=$(CDPATH='' cd -- "$(dirname -- "$0")/.." && pwd)
program=$top/crates/ty_bench/out/ty_bench
(cd "$top/crates/ty_bench" && rt run >/dev/null 2>&1) || { echo "this fails: cd crates/ty_bench && rt run" >&2; exit 1; }
crumbs=2000
TIMEFORMAT='%3R'
best() {
    for _ in 1 2 3; do
        { time "$program" chain "$@" >/dev/null; } 2>&1
    done | sort -n | head -1
}
for followers in 1 8 64; do
    "$program" chain "$crumbs" "$followers"
    time=$(best "$crumbs" "$followers")
    awk -v t="$time" -v n="$crumbs" -v f="$followers" 'BEGIN {
        printf "%d followers: %.3f s, %.0f publications/s, %.0f steps/s\n", f, t, n / t, n * f / t
    }'
done
