#!/usr/bin/env bash
# Makes 33,000,000 frames and copies the two files by `cat`, three times each by turns, and prints the
# ratio of the best times and the program's peak memory, for few frames and for many. Outside the gate.
. "$(dirname "${BASH_SOURCE[0]}")/timing.sh"
mkdir made
"$top/omxrun" make 1 1 made >/dev/null

peak() { /usr/bin/time -f %M "$program" "$@" 2>&1 >/dev/null; }

ours() { "$program" make 1 33000000 made; }
theirs() { cat made/a.wav >a.copy && cat made/b.wav >b.copy; }

echo "make takes $(hundredths 3) hundredths of the time of cat"
echo "peak memory $(peak make 1 1 made) KiB for 1 frame, $(peak make 1 33000000 made) KiB for 33000000"
