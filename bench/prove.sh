#!/usr/bin/env bash
# Times `circom_gold check`, and `prove` and `audit` in both versions of a proof, on satisfied files
# of each given number of constraints, three terms each, or on the files NAME.r1cs and NAME.wtns.
# Prints the least seconds of the runs by the clock, reading and writing of the files included, the
# least of the processor's seconds, and these in units. A unit is what python's hashlib takes for
# the SHA-256 of 256 MB of zeros without the processor's instructions for it, which make it four
# times faster where there are any; each run is followed by one, and the least of these counts. So
# figures of different machines and hours can be compared. The last line says how long a unit took.
#
# usage: bench/prove.sh [CONSTRAINTS or NAME ..]
# (4096, 16384 and 131072 where none is given; RUNS=3 sets the runs)
# With taskset, as in `taskset -c 0 bench/prove.sh`, it runs on one processor.

names=()
for word in "${@:-4096 16384 131072}"; do
    for name in $word; do
        case $name in
            *[!0-9]*) names+=("$(readlink -f "$name.r1cs" | sed 's/\.r1cs$//')") ;;
            *) names+=("$name") ;;
        esac
    done
done
. "$(dirname "$0")/timed.sh"
cc -O2 -o make_circuit "$top/bench/make_circuit.c"
seed=$(printf '%064d' 7)

# The variable is OpenSSL's, and takes the instructions for SHA-256 away.
unit() {
    OPENSSL_ia32cap=':~0x20000000' python3 -c '
import hashlib, time
block = bytes(1 << 20)
start = time.process_time()
hasher = hashlib.sha256()
for _ in range(256):
    hasher.update(block)
hasher.digest()
print(time.process_time() - start)'
}

# row COMMAND VERSION WORD ..: a line of the table for a command, whose own line must begin with the
# first of these words.
row() {
    command=$1 version=$2 wanted=$3
    shift 3
    for _ in $(seq "${RUNS:-3}"); do
        said=$( { TIMEFORMAT='%R %U %S'; time "$@"; } 2>spent )
        case $said in
            "$wanted"*) echo "$(cat spent) $(unit)" ;;
            *) echo "$said" >&2; exit 1 ;;
        esac
    done | awk -v command="$command" -v version="$version" -v size="$size" '
        function less(a, b) { return NR == 1 || a < b ? a : b }
        { clock = less($1, clock); processor = less($2 + $3, processor); unit = less($4, unit) }
        END {
            printf "%-8s %8s %12s %10.3f %10.3f %8.3f\n", command, version, size, clock, processor,
                processor / unit
        }'
}

printf '%-8s %8s %12s %10s %10s %8s\n' command version constraints seconds processor units
for name in "${names[@]}"; do
    size=$(basename "$name")
    case $name in
        /*) cp "$name.r1cs" made.r1cs; cp "$name.wtns" made.wtns ;;
        *) ./make_circuit "$name" made.r1cs made.wtns ;;
    esac
    "$program" public made.r1cs made.wtns made.json > /dev/null
    row check - satisfied "$program" check made.r1cs made.wtns
    for version in 1 2; do
        row prove $version proved: "$program" prove made.r1cs made.wtns made.proof \
            --seed "$seed" --proof $version
        row audit $version accepted "$program" audit made.r1cs made.json made.proof
    done
done
printf 'unit: %.3f seconds\n' "$(unit)"
