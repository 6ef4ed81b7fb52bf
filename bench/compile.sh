#!/bin/sh
# Times `circom_gold compile` on sources of each given size, and prints the least of the runs. What
# one of the counted things takes should stay the same as the sources grow. KIND says what is
# counted:
#
#   statements    a chain of signals, each the product of the one before it and an input, declared and written in a
#                 statement each
#   components    a chain of components, each of which squares the output of the one before it and adds an input
#   turns         turns of a loop that adds up known numbers
#   blocks        blocks of 512 bits that are hashed by SHA-256
#
# usage: bench/compile.sh [KIND] [SIZE ..]      (RUNS=5 sets the runs)

. "$(dirname "$0")/timed.sh"

# Half of the statements declare a signal, and half write one.
statements() {
    awk -v statements="$1" 'BEGIN {
        print "template Chain() {"
        print "  signal input a; signal output out;"
        print "  signal s0; s0 <== a;"
        links = int((statements - 5) / 2)
        for (i = 1; i <= links; i++) {
            printf "  signal s%d;\n  s%d <== s%d * a + %d;\n", i, i, i - 1, i
        }
        printf "  out <== s%d;\n}\ncomponent main = Chain();\n", links
    }'
}

components() {
    cat << END
template Link() { signal input x; signal input k; signal output y; y <== x * x + k; }
template Links(n) {
  signal input s; signal input k; signal output out;
  component l[n];
  l[0] = Link(); l[0].k <== k; l[0].x <== s;
  for (var i = 1; i < n; i++) { l[i] = Link(); l[i].k <== k; l[i].x <== l[i - 1].y; }
  out <== l[n - 1].y;
}
component main = Links($1);
END
}

turns() {
    cat << END
template Turns(n) {
  signal input a; signal output out;
  var sum = 0;
  for (var i = 0; i < n; i++) { sum += i * i; }
  out <== a * sum;
}
component main = Turns($1);
END
}

blocks() {
    cat << END
include "sha256.circom";
component main = Sha256($1);
END
}

kind=statements
case ${1:-} in
    statements | components | turns | blocks) kind=$1; shift ;;
esac
case $kind in
    statements) sizes='5000 10000 20000' ;;
    components) sizes='25000 50000 100000' ;;
    turns) sizes='250000 500000 1000000' ;;
    blocks) sizes='1 2 4' ;;
esac
cp "$top/bench/sha256.circom" .

row='%12s %12s %10s %14s\n'
printf "$row" "$kind" bytes seconds "us each"
for size in ${*:-$sizes}; do
    "$kind" "$size" > source.circom
    bytes=$(wc -c < source.circom)
    spent=$(nanoseconds 'compiled:')
    printf "$row" "$size" "$bytes" "$(awk "BEGIN { printf \"%.4f\", $spent / 1e9 }")" "$(awk "BEGIN { printf \"%.2f\", $spent / 1e3 / $size }")"
done
