#!/bin/sh
# Times the run of flows of steps of 20 instructions, on one thread and on 1, 2 and 4 workers, by
# the clock and in one process: of independent steps, and of trees in which 2 or 10 steps read what
# each has written. Prints for each the least of RUNS (5) runs, the nanoseconds for a step, and how
# many times faster than one worker it is; the last line of a flow says how many times longer than
# one thread one worker takes.
# Usage: bench/engine.sh [STEPS]      (1000000 where none is given)
set -eu
steps=${1:-1000000}
. "$(dirname "$0")/apart.sh"
make_program engine_bench flow_engine flow_samples
"$ours" "$steps" "${RUNS:-5}" | awk -v steps="$steps" '
    !(($1, $2) in least) || $3 < least[$1, $2] { least[$1, $2] = $3 }
    function row(flow, name, workers) {
        spent = least[flow, workers]
        faster = least[flow, 1] / spent
        printf "%12s %10.4f %10.1f %10.2f\n", name, spent / 1e9, spent / steps, faster
    }
    function table(flow, title) {
        print title
        printf "%12s %10s %10s %10s\n", "workers", "seconds", "ns/step", "faster"
        row(flow, "one thread", 0)
        row(flow, "1", 1)
        row(flow, "2", 2)
        row(flow, "4", 4)
        printf "one worker beside one thread: %.2f\n\n", least[flow, 1] / least[flow, 0]
    }
    END {
        table(0, "independent steps")
        table(2, "a tree, 2 steps behind each")
        table(10, "a tree, 10 steps behind each")
    }'
