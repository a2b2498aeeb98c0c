#!/bin/sh
# Measures `load --number 1` (20,000 updates, 8 clients that step, read, lose connections and return) beside `stream` over the
# same count of updates, in one run: processor seconds, the best of five, and their ratio; peak memory where /usr/bin/time is
# at hand.
set -eu
. "$(dirname -- "$0")/program.sh"
awk 'BEGIN { for (i = 0; i < 20000; i++) printf "{\"key\":\"/calico/v1/config/k%d\",\"value\":\"v%d\"}\n", (i * 7919) % 2000, i % 1000 }' >"$work/feed"
best() {
    for _ in 1 2 3 4 5; do
        { bash -c 'TIMEFORMAT="%U %S"; time "$@" >/dev/null' measure "$@"; } 2>&1
    done | awk '{ t = $1 + $2; if (NR == 1 || t < best) best = t } END { printf "%.3f", best }'
}
# shellcheck disable=SC2016 # the inner shell expands
stream() { best sh -c '"$1" stream <"$2"' measure "$program" "$work/feed"; }
load=$(best "$program" load --number 1)
plain=$(stream)
awk -v l="$load" -v s="$plain" 'BEGIN { printf "load: %.3f s, stream: %.3f s, ratio %.1f\n", l, s, l / (s > 0 ? s : 0.001) }'
if [ -x /usr/bin/time ]; then
    /usr/bin/time -f "load: peak %M KB" "$program" load --number 1 >/dev/null
fi
