#!/bin/sh
# The witness machine beside a plain C machine: a loop of TURNS turns (10^7) with ten instructions
# each. Prints the best of RUNS (7) runs of each, in seconds of processor time, and the quotient.
# Usage: bench/machine.sh [TURNS [RUNS]]
set -eu
turns=${1:-10000000}
runs=${2:-7}
. "$(dirname "$0")/apart.sh"
make_program machine_bench wit_code
proved=$(best "$work/first" "$ours" "$turns")
plainly=$(best "$work/second" "$plain" "$turns")
cmp -s "$work/first" "$work/second" || { echo 'the two machines differ' >&2; exit 1; }
echo "turns $turns, witness machine $proved s, plain C machine $plainly s, quotient $(awk "BEGIN { printf \"%.2f\", $proved / $plainly }")"
