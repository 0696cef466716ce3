#!/usr/bin/env bash
# Times calls by Shard::apply on one thread, and by one Server with 1, 2 and 4 threads on shards of their own: `server` of times.sh.
#   server.sh [DEVICES FRAMES ROUNDS]    each device joins, and each of its frames is heard by three gateways and its window closed; a
#                                        shard is trimmed after every 10,000 entries; of each way the fastest round counts
#   server.sh --instructions             instructions of a call on one thread, by callgrind
#   server.sh --trim [DEVICES FRAMES ROUNDS]
#                                        how long a trim of one shard takes, for which calls on the shard wait: all devices are of that
#                                        shard, and the calls are made before
#   server.sh --processes [ROUNDS]       Shard::apply in 1, 2 and 4 processes at once, which share nothing: what the machine itself gives to
#                                        more threads. Of each process the round in the middle counts
# The receipt of each call is looked at and dropped.
set -euo pipefail
here=$(cd "$(dirname "$0")" && pwd)
work=$(mktemp -d)
trap 'rm -rf "$work"' EXIT
program="$work/bench_times"
"$here/times.sh" "$program"
if [ "${1:-}" = --instructions ]; then
    count() { valgrind --tool=callgrind --callgrind-out-file="$work/$1" "$program" "server,256,8,1,$1" 2>&1 > "$work/lines" | awk '/Collected/ {print $NF}'; }
    calls=$("$program" server,256,8,1,none 2> "$work/times" | awk 'NR == 1 {print $1}')
    none=$(count none) apply=$(count apply) server=$(count server)
    awk -v n="$calls" -v none="$none" -v apply="$apply" -v server="$server" 'BEGIN {
        printf "%d calls: %.0f instructions each by apply, %.0f by the server, ratio %.2f\n", n, (apply - none) / n, (server - none) / n, (server - none) / (apply - none) }'
    exit
fi
if [ "${1:-}" = --processes ]; then
    for count in 1 2 4; do
        for process in $(seq "$count"); do
            "$program" "server,64,2000,${2:-5},apply" > "$work/lines.$process" 2> "$work/apply.$process" &
        done
        wait
        for process in $(seq "$count"); do
            awk '$1 == "apply" { print $2 / $3 }' "$work/apply.$process" | sort -n | awk '{ all[NR] = $1 } END { print all[int((NR + 1) / 2)] }'
        done | awk -v count="$count" '{ sum += $1 } END { printf "%d processes: %.0f calls a second together\n", count, sum * 1e9 }'
    done
    exit
fi
if [ "${1:-}" = --trim ]; then
    "$program" "server,${2:-1000},${3:-250},${4:-5},trim" 2> "$work/times" | uniq
    echo "load average: $(cut -d' ' -f1-3 /proc/loadavg)"
    sort -k3,3n "$work/times" | awk '
        NR == 1 { made = $2; least = $3; again = $4 }
        { most = $3; if ($4 < again) again = $4 }
        END { printf "%d entries: %.1f to %.1f ms, a second trim %.2f ms\n", made, least / 1e6, most / 1e6, again / 1e6 }'
    exit
fi
"$program" "server,${1:-64},${2:-8000},${3:-3}" > "$work/lines" 2> "$work/times"
echo "load average: $(cut -d' ' -f1-3 /proc/loadavg)"
grep -v '^trim' "$work/times" | sort -k1,1 -k3,3n | awk '!seen[$1]++' | awk '
    BEGIN { printf "%-10s %12s %10s %8s\n", "", "calls/s", "ns a call", "ratio" }
    $1 == "apply" { one = $3 }
    { printf "%-10s %12.0f %10.0f %8.2f\n", $1, $2 * 1e9 / $3, $3 / $2, one / $3 }'
