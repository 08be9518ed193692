#!/usr/bin/env bash
# Runs each clock script of tests/clock and examples/clock with the built program, and compares what it prints and its
# status with the text beside it, whose last line is 'status N'. The texts were worked out from the rules by an
# independent model. Its last line is 'clock: N passed, M failed'.
. "$(dirname "${BASH_SOURCE[0]}")/program.sh"
got=$(mktemp)
trap 'rm -f "$got"' EXIT

# What the program prints of a script in this folder, and its status.
told() {
  local status=0
  timeout 60 "$program" clock "$1" </dev/null || status=$?
  echo "status $status"
}

good=0 bad=0
for folder in tests/clock examples/clock; do
  cd "$top/$folder"
  for script in *.omx; do
    told "$script" >"$got"
    if cmp -s "${script%.omx}.out" "$got"; then
      good=$((good + 1))
    else
      bad=$((bad + 1))
      echo "$script: wanted, and got:"
      diff "${script%.omx}.out" "$got" | head -4 || true
    fi
  done
done
echo "clock: $good passed, $bad failed"
[ "$bad" -eq 0 ]
