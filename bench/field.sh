#!/bin/sh
# Products, inverses and shifts of the field beside the same loops in C.
exec "$(dirname "$0")/measure.sh" mul 0 100000000 inv 0 1000000 shift 0 100000000
