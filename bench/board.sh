#!/usr/bin/env bash
# Nanoseconds of an act on a graph and through a board by one thread, of an act of four threads through a std Mutex round the
# graph and through a board, of six acts at a component asked singly and by one draw of tickets, by one thread and by four, and
# of a load and a look at a state, with their ratios in hundredths; and the bytes of an act and of a reply. Each time is the best
# of seven turns in one run. Outside the gate.
cd "$(dirname "$0")/../crates/board_bench" || exit 1
exec rt run -- figures
