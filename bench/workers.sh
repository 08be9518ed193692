#!/usr/bin/env bash
# Times plays by workers beside one thread of the same build, on files in memory where there are such: a mix of 8,000,000 frames by 1,
# 2 and 4 workers, and six chains of decoder, gain and encoder side by side by 4 (a play's 32 components have room for no more, each
# with a source and a sink). Prints the ratios of the medians of five runs each, all by turns, whether each sink's bytes were the same,
# and the peak memory beyond one thread's, the most of three runs. Outside the gate.
if [ -w /dev/shm ]; then export TMPDIR=/dev/shm; fi
. "$(dirname "${BASH_SOURCE[0]}")/timing.sh"

frames=8000000
chains=6

play() { "$program" play "$1" "$2" "log$2"; }

# The script of the chains, each of them from the A-law file of the mix.
chains_of() {
  echo 'omx 1 play'
  for at in $(seq "$chains"); do
    printf 'source a%s w/out.wav\ndecoder d%s\ngain g%s 2048\nalaw e%s\nsink s%s chain%s.wav\n' "$at" "$at" "$at" "$at" "$at" "$at"
  done
  for at in $(seq "$chains"); do
    printf 'link a%s.0 d%s.0 4 4096\nlink d%s.1 g%s.0 4 4096\nlink g%s.1 e%s.0 4 4096\nlink e%s.1 s%s.0 4 4096\n' \
      "$at" "$at" "$at" "$at" "$at" "$at" "$at" "$at"
  done
}

# Plays the script by each of these numbers of workers in turn, five times, and prints for each number but 0 what the median is in
# hundredths of that of one thread. The files that it writes are compared with those of one thread.
compare() {
  local what=$1 script=$2 sinks=$3 workers numbers sink
  shift 3
  numbers=("$@")
  declare -A times=()
  play "$script" 0 >/dev/null
  mkdir -p one && for sink in $sinks; do mv "$sink" "one/${sink##*/}"; done
  for _ in 1 2 3 4 5; do
    for workers in 0 "${numbers[@]}"; do
      times[$workers]+=" $(nanoseconds play "$script" "$workers")"
      for sink in $sinks; do
        cmp "$sink" "one/${sink##*/}"
      done
    done
  done
  for workers in "${numbers[@]}"; do
    # shellcheck disable=SC2086
    echo "$what by $workers workers takes $(($(median ${times[$workers]}) * 100 / $(median ${times[0]}))) hundredths of one thread's time"
  done
}

# The peak memory of a play in KiB, the most of three runs.
peak() {
  for _ in 1 2 3; do
    /usr/bin/time -f %M "$program" play "$1" "$2" "log$2" 2>&1 >/dev/null
  done | sort -n | tail -n 1
}

"$top/omxrun" trace /dev/null >/dev/null || true
mkdir w
"$program" make 1 "$frames" w >/dev/null
echo "processors: $(nproc), load before: $(cut -d' ' -f1 /proc/loadavg)"
compare "a mix of $frames frames" w/mix.omx w/out.wav 1 2 4
one=$(peak w/mix.omx 0)
for workers in 1 2 4; do
  most=$(peak w/mix.omx "$workers")
  lines=$(wc -l <"log$workers")
  echo "peak memory by $workers workers: $((most - one)) KiB beyond the $one KiB of one thread; 1 MiB a worker and 16 bytes a line are $((workers * 1024 + lines / 64)) KiB"
done
chains_of >chains.omx
compare "a play of $chains chains" chains.omx "$(seq -f 'chain%.0f.wav' "$chains" | tr '\n' ' ')" 4
