#!/bin/sh
# Times what computes witnesses, with 1 and with 4 workers, and prints the least seconds of the runs
# by the clock.
#
#   links     `circom_gold generate 7 SIZE`: SIZE links side by side, compiled and run. What one
#             link takes should stay the same as the sizes grow. Its most memory stands behind.
#   blocks    `circom_gold witness` of SIZE blocks of 512 bits that are hashed by SHA-256
#
# usage: bench/witness.sh [KIND] [SIZE ..]      (RUNS=5 sets the runs)

. "$(dirname "$0")/timed.sh"

# seconds BEGINNING WORD ..: the least seconds of RUNS calls of the program, whose line must begin
# so, and the most memory of one.
seconds() {
    begins=$1
    shift
    for _ in $(seq "${RUNS:-5}"); do
        /usr/bin/time -f '%e %M' -o used "$program" "$@" > said || true
        case $(tail -n 1 said) in
            "$begins"*) cat used ;;
            *) cat said >&2; exit 1 ;;
        esac
    done | sort -n | awk 'NR == 1 { least = $1 } $2 > most { most = $2 } END { printf "%.2f s, %d MB", least, most / 1024 }'
}

# A message of so many blocks, all of whose bits are 0.
blocks() {
    cp "$top/bench/sha256.circom" .
    echo "include \"sha256.circom\"; component main = Sha256($1);" > source.circom
    awk -v bits=$(($1 * 512)) 'BEGIN {
        printf "{\"in\":["
        for (i = 0; i < bits; i++) printf "%s0", i ? "," : ""
        print "]}"
    }' > input.json
}

kind=${1:-links}
[ $# -eq 0 ] || shift
case $kind in
    links) [ $# -gt 0 ] || set -- 100000 200000 300000 ;;
    blocks) [ $# -gt 0 ] || set -- 1 2 ;;
    *) echo "usage: bench/witness.sh [links or blocks] [SIZE ..]" >&2; exit 64 ;;
esac
for size in "$@"; do
    for workers in 1 4; do
        case $kind in
            links) took=$(seconds "generated" generate 7 "$size" --workers $workers) ;;
            blocks)
                blocks "$size"
                took=$(seconds "witness" witness source.circom input.json made.wtns --workers $workers)
                ;;
        esac
        echo "$kind $size, $workers workers: $took"
    done
done
