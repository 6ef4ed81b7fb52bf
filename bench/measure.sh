#!/bin/bash
# Times the proved program against bench/loops.c, which this run compiles:
#   measure.sh CALL SIZE TIMES ..
# Each line has the call, its size, the nanoseconds of processor time that one call takes in ours
# and in C, and the ratio. Each number is the least of three runs, and the checksums must agree.
set -eu
here=$(cd "$(dirname "$0")" && pwd)
cd "$here/../crates/bench"
rt run -- mul 0 1 >/dev/null 2>&1
work=$(mktemp -d)
trap 'rm -rf "$work"' EXIT
"${CC:-clang}" -O2 -o "$work/loops" "$here/loops.c"

# milliseconds of processor time
least() {
    local TIMEFORMAT=%U best= spent
    for _ in 1 2 3; do
        spent=$({ time "$@" >"$work/sum"; } 2>&1)
        spent=$((10#${spent/./}))
        if [ -z "$best" ] || [ "$spent" -lt "$best" ]; then best=$spent; fi
    done
    echo "$best"
}

while [ $# -gt 0 ]; do
    call=$1 size=$2 times=$3
    shift 3
    ours=$(least out/bench "$call" "$size" "$times")
    sum=$(cat "$work/sum")
    theirs=$(least "$work/loops" "$call" "$size" "$times")
    if [ "$sum" != "$(cat "$work/sum")" ]; then
        echo "$call $size: the checksums differ" >&2
        exit 1
    fi
    echo "$call $size: ours $((ours * 1000000 / times)) ns, C $((theirs * 1000000 / times)) ns, ratio $((ours * 100 / theirs))%"
done
