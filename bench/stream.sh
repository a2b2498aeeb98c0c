#!/bin/sh
# Measures the built program: `stream`, `follow --brief` and `stream | follow --brief`, over a feed of 100,000 updates
# of 1,000 keys, and as a peer `wc -l` over the same feed in the same run. Prints seconds, MB/s of what is read and, where
# /usr/bin/time is at hand, peak memory.
set -eu
. "$(dirname -- "$0")/program.sh"
awk 'BEGIN { for (i = 0; i < 100000; i++) printf "{\"key\":\"/calico/v1/config/k%d\",\"value\":\"v%d\"}\n", (i * 7919) % 1000, i }' >"$work/feed"
measure() {
    name=$1
    read=$2
    shift 2
    start=$(date +%s%N)
    "$@"
    end=$(date +%s%N)
    awk -v n="$name" -v f="$read" -v b="$(wc -c <"$work/$read")" -v t="$((end - start))" \
        'BEGIN { printf "%-24s %8.3f s %8.1f MB/s of %s\n", n, t / 1e9, b / 1e6 / (t / 1e9), f }'
}
count() { wc -l <"$work/feed" >/dev/null; }
stream() { "$program" stream <"$work/feed" >"$work/frames"; }
follow() { "$program" follow --brief <"$work/frames" >"$work/text"; }
both() { "$program" stream <"$work/feed" | "$program" follow --brief >"$work/text"; }
measure "wc -l" feed count
measure "stream" feed stream
measure "follow --brief" frames follow
measure "stream | follow --brief" feed both
if [ -x /usr/bin/time ]; then
    /usr/bin/time -f "stream: peak %M KB" "$program" stream <"$work/feed" >/dev/null
    /usr/bin/time -f "follow --brief: peak %M KB" "$program" follow --brief <"$work/frames" >/dev/null
fi
