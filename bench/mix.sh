#!/usr/bin/env bash
# Mixes two made files of 480,000 and of 8,000,000 frames and codes the mix as A-law, beside a plain C program that writes the
# same bytes (`floor.c`; it wants `cc`) and beside a copy of both files by `cat`, five times each by turns, on files in memory
# where there are such; prints the ratio of the medians beside the C program, that of the best times beside `cat`, and for each
# the peak memory and the bytes of the log. It stands outside the gate.
if [ -w /dev/shm ]; then export TMPDIR=/dev/shm; fi
. "$(dirname "${BASH_SOURCE[0]}")/timing.sh"

ours() { "$program" play w/mix.omx 0 log; }

"$top/omxrun" trace /dev/null >/dev/null || true
cc -O2 -o floor "$top/bench/floor.c"
mkdir w
for frames in 480000 8000000; do
  "$program" make 1 "$frames" w >/dev/null
  theirs() { ./floor w/a.wav w/b.wav floor.wav; }
  echo "a mix of $frames frames takes $(median_hundredths) hundredths of the time of a plain C program"
  cmp w/out.wav floor.wav
  theirs() { cat w/a.wav w/b.wav >copy; }
  echo "a mix of $frames frames takes $(hundredths 5) hundredths of the time of cat"
  echo "peak memory $(/usr/bin/time -f %M "$program" play w/mix.omx 0 log 2>&1 >/dev/null) KiB, a log of $(wc -c <log) bytes"
done
