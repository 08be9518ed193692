#!/usr/bin/env bash
# Traces a script of 65,000 bytes and counts its lines by `wc`, five times each by turns, and prints the ratio of the
# best times. It stands outside the gate.
. "$(dirname "${BASH_SOURCE[0]}")/timing.sh"
{
  printf 'omx 1 trace\nget a OMX.lab.gain\n'
  for _ in $(seq 1900); do printf 'send a flush 0\nrun a\ntake a\nstate a\n'; done
} | head -c 64990 | sed '$d' >trace.omx
"$top/omxrun" trace trace.omx >/dev/null

ours() { "$program" trace trace.omx; }
theirs() { wc trace.omx; }

echo "$(stat -c %s trace.omx) bytes, $(wc -l <trace.omx) lines: a trace takes $(hundredths 5) hundredths of the time of wc"
