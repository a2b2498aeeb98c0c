#!/usr/bin/env bash
# Measures deliveries of breadcrumbs to 64 sessions in one thread, with the deltas encoded for each session and once for
# all sessions: breadcrumbs of 100 puts that are delivered at once, and of 33 puts that are held in groups of three.
# To read it: processor seconds, the best of five runs; deliveries a second and the second ratio leave out what the
# breadcrumbs alone take (a run without sessions), so that encoding once counts among the deliveries.
set -euo pipefail
top=$(CDPATH='' cd -- "$(dirname -- "$0")/.." && pwd)
program=$top/crates/ty_bench/out/ty_bench
(cd "$top/crates/ty_bench" && rt run >/dev/null 2>&1) || { echo "this fails: cd crates/ty_bench && rt run" >&2; exit 1; }
sessions=64
crumbs=300
TIMEFORMAT='%3U %3S'
best() {
    for _ in 1 2 3 4 5; do
        { time "$program" sessions "$@" >/dev/null; } 2>&1
    done | awk '{ t = $1 + $2; if (NR == 1 || t < best) best = t } END { printf "%.3f", best }'
}
for held in "" held; do
    "$program" sessions "$sessions" "$crumbs" encoded $held
    alone=$(best 0 "$crumbs" each $held)
    each=$(best "$sessions" "$crumbs" each $held)
    once=$(best "$sessions" "$crumbs" encoded $held)
    awk -v a="$alone" -v e="$each" -v o="$once" -v n="$((sessions * crumbs))" -v h="${held:-at once}" 'BEGIN {
        printf "%s: breadcrumbs alone %.3f s, encoded for each %.3f s, encoded once %.3f s, ratio %.1f\n", h, a, e, o, e / o
        if (e <= a || o <= a) exit
        printf "%s: encoded for each %.0f deliveries/s, encoded once %.0f deliveries/s, ratio %.1f\n",
            h, n / (e - a), n / (o - a), (e - a) / (o - a)
    }'
done
