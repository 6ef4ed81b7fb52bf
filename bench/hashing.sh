#!/bin/sh
# Hashing of LEAVES (16384) leaves of WORDS (2054) words: ours beside a plain SHA-256 in C, and
# beside openssl, which uses the processor's own instructions where it has them. Prints the best of
# RUNS (5) runs in seconds of processor time, and the quotients.
# Usage: bench/hashing.sh [LEAVES [WORDS [RUNS]]]
set -eu
leaves=${1:-16384}
words=${2:-2054}
runs=${3:-5}
. "$(dirname "$0")/apart.sh"
make_program hashing_bench lig_merkle
proved=$(best "$work/first" "$ours" "$leaves" "$words")
plainly=$(best "$work/second" "$plain" "$leaves" "$words")
cmp -s "$work/first" "$work/second" || { echo 'the hashes differ' >&2; exit 1; }
echo "leaves $leaves, words $words, ours $proved s, plain C $plainly s, quotient $(awk "BEGIN { printf \"%.2f\", $proved / $plainly }")"
if command -v openssl > /dev/null; then
    # thousands of bytes a second, in messages of 16384 bytes
    speed=$(openssl speed -seconds 2 -bytes 16384 sha256 2> /dev/null | awk '/^sha256/ { sub(/k$/, "", $2); print $2 }')
    awk "BEGIN { native = $leaves * (1 + 8 * $words) / ($speed * 1000); printf \"openssl: %.2f s, quotient %.2f\n\", native, $proved / native }"
fi
