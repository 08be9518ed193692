#!/usr/bin/env bash
# Prints for 1, 2, 4 and 8 threads the nanoseconds of a turn on an empty act, those of a lock of a std
# Mutex taken as often in the same run, and their ratio. Each number is the median of seven runs.
# Usage: bench/turns.sh [TURNS of each thread]. BENCH_WITH is put before the program, as BENCH_WITH='chrt -f 10'.
set -euo pipefail
cd "$(dirname "$0")/../crates/turns_bench"
turns=${1:-100000}
rt run >/dev/null 2>&1 || { echo "turns_bench is not proved or does not run: see rt run in $PWD" >&2; exit 1; }
echo "processors: $(nproc), load before: $(cut -d' ' -f1 /proc/loadavg)"
median() { sort -g | sed -n 4p; }
for threads in 1 2 4 8; do
    # shellcheck disable=SC2086
    runs=$(for _ in 1 2 3 4 5 6 7; do ${BENCH_WITH:-} ./out/turns_bench "$threads" "$turns"; done)
    all=$((threads * turns))
    turn=$(awk -v n="$all" '{print $1 / n}' <<<"$runs" | median)
    lock=$(awk -v n="$all" '{print $2 / n}' <<<"$runs" | median)
    ratio=$(awk '{print $1 / $2}' <<<"$runs" | median)
    printf '%d threads: %.0f turns a second, a turn %.1f ns, a lock %.1f ns, ratio %.2f\n' \
        "$threads" "$(awk -v t="$turn" 'BEGIN {print 1e9 / t}')" "$turn" "$lock" "$ratio"
done
