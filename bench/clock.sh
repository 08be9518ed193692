#!/usr/bin/env bash
# Runs a clock's script of 65,000 bytes and counts its lines by `wc`, five times each by turns, and prints the ratio of
# the best times; then what a call that jumps over 2^53 moments takes, beside one that jumps over one. Outside the gate.
. "$(dirname "${BASH_SOURCE[0]}")/timing.sh"
{
  printf 'omx 1 clock\nat 0 start 0\n'
  for at in $(seq 100 1500); do
    printf 'at %s ask %s %s\nat %s scale 65536\nat %s pass\n' "$at" "$at" "$((at + 20))" "$at" "$at"
  done
} | head -c 64990 | sed '$d' >clock.omx
"$top/omxrun" clock clock.omx >/dev/null

ours() { "$program" clock clock.omx; }
theirs() { wc clock.omx; }

echo "$(stat -c %s clock.omx) bytes, $(wc -l <clock.omx) lines: a clock takes $(hundredths 5) hundredths of the time of wc"
cd "$top/crates/clock_bench"
rt run -- figures
