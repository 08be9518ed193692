# Sourced by the benchmarks that time the program beside another one. They go on in a folder of their own.
set -eu
top=$(cd "$(dirname "${BASH_SOURCE[0]}")/.." && pwd)
program=$top/crates/omxrun/out/omxrun
work=$(mktemp -d)
trap 'rm -rf "$work"' EXIT
cd "$work"

# The nanoseconds that a command takes.
nanoseconds() {
  local from to
  from=$(date +%s%N)
  "$@" >/dev/null
  to=$(date +%s%N)
  echo $((to - from))
}

# The lesser of two numbers.
best() { if [ "$1" -lt "$2" ]; then echo "$1"; else echo "$2"; fi; }

# What the function `ours` takes in hundredths of the time of `theirs`: the best of so many times each, by turns.
hundredths() {
  local ours_best=9999999999999 theirs_best=9999999999999
  for _ in $(seq "$1"); do
    ours_best=$(best "$ours_best" "$(nanoseconds ours)")
    theirs_best=$(best "$theirs_best" "$(nanoseconds theirs)")
  done
  echo $((ours_best * 100 / theirs_best))
}

# The middle of five numbers.
median() { printf '%s\n' "$@" | sort -n | sed -n 3p; }

# What the function `ours` takes in hundredths of the time of `theirs`: the medians of five times each, by turns.
median_hundredths() {
  local ours_times=() theirs_times=()
  for _ in 1 2 3 4 5; do
    ours_times+=("$(nanoseconds ours)")
    theirs_times+=("$(nanoseconds theirs)")
  done
  echo $(($(median "${ours_times[@]}") * 100 / $(median "${theirs_times[@]}")))
}
