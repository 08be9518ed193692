#!/usr/bin/env bash
# Mixes two made files of 480,000 and of 8,000,000 frames and checks the log of that, beside the play itself, five times each by turns, on
# files in memory where there are such; prints the ratio of the medians, and the check's peak memory beside the bytes of the log. Wanted: at
# most 1.5 times the play, and at most 8 MiB and the log. It stands outside the gate.
if [ -w /dev/shm ]; then export TMPDIR=/dev/shm; fi
. "$(dirname "${BASH_SOURCE[0]}")/timing.sh"

ours() { "$program" audit w/mix.omx log; }
theirs() { "$program" play w/mix.omx 0 log; }

"$top/omxrun" trace /dev/null >/dev/null || true
mkdir w
for frames in 480000 8000000; do
  "$program" make 1 "$frames" w >/dev/null
  theirs >/dev/null
  ours | sed "s/^/the log of a mix of $frames frames: /"
  echo "its check takes $(median_hundredths) hundredths of the time of the play"
  echo "peak memory $(/usr/bin/time -f %M "$program" audit w/mix.omx log 2>&1 >/dev/null) KiB, with a log of $(($(wc -c <log) / 1024)) KiB"
done
