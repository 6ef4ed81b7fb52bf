#!/bin/sh
# Times `circom_gold sym` beside `circom_gold compile` on chains of each given number of signals:
# the least processor seconds of the runs, and their ratio.
#
# usage: bench/names.sh [SIGNALS ..]      (RUNS=5 sets the runs)

. "$(dirname "$0")/timed.sh"

# seconds WORD OUT: the least processor seconds of the command on the source.
seconds() {
    for _ in $(seq "${RUNS:-5}"); do
        # Prints the line of the command, and then the seconds in user mode and in the system.
        python3 - "$program" "$1" source.circom "$2" << 'END'
import os, subprocess, sys
subprocess.run(sys.argv[1:], check=True, stdout=subprocess.DEVNULL)
used = os.times()
print(used.children_user + used.children_system)
END
    done | sort -g | head -n 1
}

row='%12s %12s %12s %8s\n'
printf "$row" signals compile sym ratio
for signals in ${*:-250000 500000 1000000}; do
    cat > source.circom << END
template Chain(n) {
  signal input in; signal output out; signal x[n];
  x[0] <== in*in;
  for (var i = 1; i < n; i++) { x[i] <== x[i - 1]*in; }
  out <== x[n - 1];
}
component main = Chain($((signals - 2)));
END
    compiled=$(seconds compile made.r1cs)
    named=$(seconds sym made.sym)
    ratio=$(awk "BEGIN { printf \"%.2f\", $named / $compiled }")
    printf "$row" "$signals" "$compiled" "$named" "$ratio"
done
