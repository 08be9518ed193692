#!/usr/bin/env bash
# Gives the wrapper ./omxrun words, and compares what it prints and its status with what the program answers: words of no
# form, which it answers itself, also in a checkout where nothing is built; and a trace, also by a link in another folder.
# Its last line is 'wrapper: N passed, M failed'.
. "$(dirname "${BASH_SOURCE[0]}")/program.sh"
room=$(mktemp -d)
trap 'rm -rf "$room"' EXIT
# a checkout where nothing is built, and nothing can be
mkdir -p "$room/bare/crates/omxrun"
cp "$top/omxrun" "$room/bare"
cp -r "$top/crates/omxrun/specs" "$room/bare/crates/omxrun"
ln -s "$top/omxrun" "$room/linked"
ln -s linked "$room/linked-again"
trace=$top/examples/traces/idle.omx
good=0 bad=0

# What a command prints, and its status.
told() {
  local status=0
  timeout 60 "$@" </dev/null 2>/dev/null || status=$?
  echo "status $status"
}

# Is what the first command tells what the program tells of the words?
same() {
  local name=$1 command=$2
  shift 2
  if [ "$(told "$command" "$@")" = "$(told "$program" "$@")" ]; then
    good=$((good + 1))
  else
    bad=$((bad + 1))
    echo "$name: $* isn't answered as the program answers it"
  fi
}

cd "$room"
for words in '' '--help' 'plya x 0 log' 'trace' 'trace x y' 'play x 0' 'play x 0 log log' 'pack x' 'audit x' 'make 1 1'; do
  same 'the wrapper' "$top/omxrun" $words
  same 'where nothing is built' "$room/bare/omxrun" $words
done
same 'the wrapper' "$top/omxrun" trace "$trace"
same 'by a link' ./linked trace "$trace"
same 'by a link to a link' ./linked-again trace "$trace"
same 'by a link, words of no form' ./linked-again --help
for program_or_not in "$top/omxrun" "$room/bare/omxrun"; do
  if "$program_or_not" --help >/dev/full 2>/dev/null || [ $? -ne 5 ]; then
    bad=$((bad + 1))
    echo "$program_or_not: what can't be printed isn't a failed write"
  else
    good=$((good + 1))
  fi
done
echo "wrapper: $good passed, $bad failed"
[ "$bad" -eq 0 ]
