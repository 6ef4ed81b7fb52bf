#!/bin/sh
# Counts the threads of the program from outside, in /proc, while it computes a witness on so many
# workers. The program's first thread waits for one with a deep stack, which is one of the workers;
# each other worker has a thread of its own. So the most that are seen must be one more than the
# workers; else the script ends with 1.
#
# usage: bench/threads.sh [WORKERS ..]      (1 2 4 8 where none is given)

. "$(dirname "$0")/timed.sh"
turns=30000000
cat > source.circom <<'SOURCE'
template Turns() {
  signal input n; signal output y; var i = n; var s = 1;
  while (i != 0) { s = s * s + 1; i--; }
  y <-- s;
}
component main = Turns();
SOURCE
echo "{\"n\": $turns}" > input.json

# The most threads of a process that are seen before it ends.
most_threads() {
    most=0
    while :; do
        set -- "$1" $(awk '/^(State|Threads):/ { print $2 }' "/proc/$1/status" 2> /dev/null)
        case ${2:-Z} in Z | X) break ;; esac
        [ "$3" -le "$most" ] || most=$3
    done
    echo "$most"
}

failed=0
for workers in ${*:-1 2 4 8}; do
    set -- --workers "$workers" --fuel $turns
    "$program" witness source.circom input.json made.wtns "$@" > said &
    running=$!
    most=$(most_threads $running)
    wait $running || { cat said >&2; exit 1; }
    echo "$workers workers: $most threads"
    [ "$most" -eq $((workers + 1)) ] || failed=1
done
exit $failed
