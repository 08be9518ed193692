#!/usr/bin/env bash
# Nanoseconds an act of a graph, by its components and the headers of each port, and the growth from the smallest case; of a
# header that is handed over, claimed, finished and handed back, as a multiple of a number that goes through a queue, and the
# growth with the headers in the lists; of a gain's claim, run and finish on 4,096 bytes, beside its kernel alone. Each is the
# best of several turns in one run. Outside the gate.
cd "$(dirname "$0")/../crates/steps_bench" || exit 1
exec rt run -- figures
