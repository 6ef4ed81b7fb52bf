#!/bin/sh
# Times `circom_gold check` beside a plain checker in C, on satisfied files of each given number of
# constraints, three terms each. Prints the least of the runs, reading of the files included.
#
# usage: bench/check.sh [CONSTRAINTS ..]      (16384 and 131072 where none is given; RUNS=7 sets the runs)

. "$(dirname "$0")/timed.sh"
cc -O2 -o make_circuit "$top/bench/make_circuit.c"
cc -O2 -o plain_check "$top/bench/plain_check.c"

# The least seconds of some runs of the command, which must say that the values satisfy the file.
seconds() {
    for _ in $(seq "${RUNS:-7}"); do
        start=$(date +%s%N)
        said=$("$@")
        end=$(date +%s%N)
        [ "$said" = satisfied ] || { echo "$1: $said" >&2; exit 1; }
        echo $((end - start))
    done | sort -n | awk 'NR == 1 { printf "%.4f", $1 / 1e9 }'
}

row='%-12s %12s %12s %10s %8s\n'
printf "$row" checker constraints bytes seconds MB/s
for constraints in ${*:-16384 131072}; do
    ./make_circuit "$constraints" made.r1cs made.wtns
    bytes=$(cat made.r1cs made.wtns | wc -c)
    for checker in circom_gold plain_check; do
        case $checker in
            circom_gold) spent=$(seconds "$program" check made.r1cs made.wtns) ;;
            plain_check) spent=$(seconds ./plain_check made.r1cs made.wtns) ;;
        esac
        rate=$(awk "BEGIN { printf \"%.0f\", $bytes / 1e6 / $spent }")
        printf "$row" "$checker" "$constraints" "$bytes" "$spent" "$rate"
    done
done
