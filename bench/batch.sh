#!/bin/sh
# Times `circom_gold batch` on a circuit of that many strands and that many lines of inputs: with 1
# worker and with 4, by the clock and in processor seconds, beside as many runs of `witness` less
# what starting it takes.
#
# usage: bench/batch.sh [STRANDS LINES]      (RUNS=3 sets the runs)

. "$(dirname "$0")/timed.sh"

strands=${1:-1000} lines=${2:-1000}
cat > source.circom << END
template Link(n) {
  signal input x; signal output y; signal s[n];
  s[0] <== x*x;
  for (var i = 1; i < n; i++) { s[i] <== s[i - 1]*s[i - 1] + x; }
  y <== s[n - 1];
}
template Links(k, n) {
  signal input in; signal output out; component l[k]; var sum = 0;
  for (var i = 0; i < k; i++) { l[i] = Link(n); l[i].x <== in + i; sum += l[i].y; }
  out <== sum;
}
component main = Links($strands, 10);
END
awk -v lines="$lines" 'BEGIN { for (i = 0; i < lines; i++) printf "{\"in\":%d}\n", i*i + 1 }' \
    > inputs
head -n 1 inputs > input.json

# least WORD ..: the least seconds by the clock of the runs of these words, and the processor's.
least() {
    RUNS=${RUNS:-3} python3 - "$program" "$@" << 'END'
import os, subprocess, sys, time
rows = []
for _ in range(int(os.environ["RUNS"])):
    before, start = sum(os.times()[2:4]), time.monotonic()
    subprocess.run(sys.argv[1:], check=True, stdout=subprocess.DEVNULL)
    rows.append((time.monotonic() - start, sum(os.times()[2:4]) - before))
print(*min(rows))
END
}

row='%-28s %12s %12s\n'
printf "$row" what clock processor
say() {
    what=$1
    shift
    set -- $(least "$@")
    printf "$row" "$what" "$(printf %.3f "$1")" "$(printf %.3f "$2")"
}
say "one witness, 1 worker" witness source.circom input.json one.wtns --workers 1
say "compiling alone" compile source.circom made.r1cs
say "batch, 1 worker" batch source.circom inputs made.batch --workers 1
say "batch, 4 workers" batch source.circom inputs made.batch --workers 4
