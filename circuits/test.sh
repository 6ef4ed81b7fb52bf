#!/bin/sh
# Tests the circuits of this folder, all or the files named, and prints a line a template.
#
#     circuits/test.sh                     all of them
#     circuits/test.sh bits sha256         those of two files
#     PROGRAM=FILE circuits/test.sh        with another program than ./circom_gold
#     QUICK=1 circuits/test.sh             one size of each, at one level, with few inputs
#
# It ends with 1 where anything is wrong.
here=$(dirname "$(readlink -f "$0")")
. "$here/../allocator.sh"
# No folder of compiled Python is left beside the circuits.
export PYTHONDONTWRITEBYTECODE=1
python3 "$here/../tools/library_texts.py" --check || exit 1
exec python3 "$here/test.py" "$@"
