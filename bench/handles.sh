#!/usr/bin/env bash
# What making and freeing a component takes, alone and beside 31 others, as a multiple of putting a map's entry and taking it
# out in the same run, and of a lone gain. Each is the best of several turns. Outside the gate.
cd "$(dirname "$0")/../crates/handles_bench" || exit 1
exec rt run -- figures
