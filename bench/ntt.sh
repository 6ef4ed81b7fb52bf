#!/bin/sh
# Transforms of 2^10, 2^14, 2^17 and 2^20 places beside a plain transform in C.
exec "$(dirname "$0")/measure.sh" ntt 10 16384 ntt 14 1024 ntt 17 128 ntt 20 16
