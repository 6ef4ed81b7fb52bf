#!/bin/sh
# Times simplification of long lists of linear constraints beside a plain C program that does the
# same: at --O1 a chain in which each signal is equal to the one before, at --O2 one in which each
# is the sum of the two before. All but one constraint are solved and go. Prints the least of RUNS
# (5) runs of each in seconds of processor time, the quotient, and our microseconds for a
# constraint, which should stay the same as the lists grow.
# Usage: bench/simplify.sh [SIGNALS ..]      (10000 and 100000 where none is given)
set -eu
runs=${RUNS:-5}
. "$(dirname "$0")/apart.sh"
make_program simplify_bench cir_simplify simplify_samples
row='%6s %12s %10s %10s %10s %16s\n'
printf "$row" level constraints ours plain quotient us/constraint
for level in 1 2; do
    for signals in ${*:-10000 100000}; do
        times=$((300000 / signals + 1))
        proved=$(best "$work/first" "$ours" "$level" "$signals" "$times")
        plainly=$(best "$work/second" "$plain" "$level" "$signals" "$times")
        cmp -s "$work/first" "$work/second" || { echo 'the two programs differ' >&2; exit 1; }
        read -r before left solved < "$work/first"
        awk -v ours="$proved" -v plain="$plainly" -v times="$times" -v before="$before" -v level="$level" -v row="$row" '
            BEGIN {
                each = ours / times
                printf row, "--O" level, before, sprintf("%.3f", each), sprintf("%.3f", plain / times),
                    sprintf("%.1f", ours / plain), sprintf("%.2f", each / before * 1e6)
            }'
    done
done
