#!/bin/sh
# Runs every command with each of its requests for memory refused, and with each of its calls of the
# system failed, interrupted or cut short, and looks at every answer: refused.py says how.
#
# usage: bench/refused.sh [KIND ..]      (memory, open, read, write and close where none is given;
#     ONLY="check compile" takes these commands alone; MOST=40 tries at most 40 numbers of a
#     command's calls of one kind, spread evenly; PROGRAM=FILE runs that program in place of this
#     repository's; LIBRARY=FILE preloads that library in place of bench/refused.c)

top=$(dirname "$(dirname "$(readlink -f "$0")")")
folder=$(mktemp -d)
trap 'rm -rf "$folder"' EXIT
if [ -z "$PROGRAM" ]; then
    # These words have no reading.
    "$top/circom_gold" > /dev/null || [ $? -eq 64 ] || exit 70
    PROGRAM=$top/crates/circom_cli/out/circom_cli
fi
if [ -z "$LIBRARY" ]; then
    LIBRARY=$folder/refused.so
    cc -O2 -shared -fPIC -o "$LIBRARY" "$top/bench/refused.c" || exit 70
fi
python3 "$top/bench/refused.py" "$PROGRAM" "$LIBRARY" "$folder" "$@"
