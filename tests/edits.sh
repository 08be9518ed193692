#!/usr/bin/env bash
# Tries the must-fail edits that the gate leaves out, of these crates (none: of all), on a copy. Outside the gate.
# What `rt ci` proved on this machine isn't proved again. Usage: tests/edits.sh [CRATE ..]
set -eu
cd "$(dirname "$0")/.."
[ $# -gt 0 ] || set -- $(cd tests/edits && ls -d */ | tr -d /)
copy=$(mktemp -d)
trap 'rm -rf "$copy"' EXIT
tar -c --exclude='crates/*/out' --exclude='crates/*/must-fail' crates crates.txt HANDLES | tar -x -C "$copy"
names=()
for name; do
    [ -d "tests/edits/$name" ] || { echo "$name has no others"; continue; }
    cp -r "tests/edits/$name" "$copy/crates/$name/must-fail"
    names+=("$name")
done
[ ${#names[@]} -eq 0 ] || (cd "$copy" && rt ci "${names[@]}")
