#!/bin/sh
# Times the reading of sources of each given number of megabytes: templates and functions with
# every form of statement and expression. Each is read twice: with an item behind them that has no
# reading, so that the program ends with the parse, and with a main component behind them that has
# an argument too few, so that the program resolves and checks all names before it refuses that.
# Prints the least of the runs and the megabytes a second, which should stay the same as the
# sources grow, and how many bytes of memory the second one takes for a byte of the source.
#
# usage: bench/parse.sh [MEGABYTES ..]     (1, 2, 4 and 8 where none is given; RUNS=5 sets the runs)

. "$(dirname "$0")/timed.sh"

# So many bytes of definitions, at least.
definitions() {
    awk -v bytes="$1" 'BEGIN {
        for (n = 0; written < bytes; n++) {
            text = "function f" n "(x, y) {\n" \
                "  var sum = 0, table[2][3] = [[1, 2, 3], [4, 5, 6]];\n" \
                "  for (var i = 0; i < x; i++) { if (i % 2 == 0 && y != 0) { " \
                "sum += table[i % 2][i % 3] ** 2; } else { sum -= i >> 1; } }\n" \
                "  while (sum > 1000) sum = sum \\ 2;\n" \
                "  return x < y ? sum : -sum * (x + y);\n" \
                "}\n" \
                "template T" n "(n, k) {\n" \
                "  signal input a[n]; signal output b; signal c <== a[0] * a[1] + k;\n" \
                "  var z = f" n "(n, k);\n" \
                "  assert(n > 1);\n" \
                "  log(\"begins\", n);\n" \
                "  c * (c - 1) === 0;\n" \
                "  b <-- (c >> 2) & 1 | z;\n" \
                "}\n"
            written += length(text)
            printf "%s", text
        }
    }'
}

# The most kilobytes of memory that a compilation of source.circom has at once.
kilobytes() {
    python3 -c 'import resource, subprocess, sys
subprocess.run(sys.argv[1:], stdout=subprocess.DEVNULL)
print(resource.getrusage(resource.RUSAGE_CHILDREN).ru_maxrss)' \
        "$program" compile source.circom made.r1cs
}

row='%12s %10s %12s %10s %12s %12s\n'
printf "$row" bytes parse_s parse_MB/s all_s all_MB/s memory/byte
for megabytes in ${*:-1 2 4 8}; do
    definitions $((megabytes * 1000000)) > source.circom
    bytes=$(wc -c < source.circom)
    echo 'component main = T0(1);' >> source.circom
    all=$(nanoseconds 'refused: E7 Arity')
    memory=$(kilobytes)
    echo 'template' >> source.circom
    parsed=$(nanoseconds 'refused: E2 Syntax')
    printf "$row" "$bytes" \
        "$(awk "BEGIN { printf \"%.3f\", $parsed / 1e9 }")" \
        "$(awk "BEGIN { printf \"%.1f\", $bytes * 1e3 / $parsed }")" \
        "$(awk "BEGIN { printf \"%.3f\", $all / 1e9 }")" \
        "$(awk "BEGIN { printf \"%.1f\", $bytes * 1e3 / $all }")" \
        "$(awk "BEGIN { printf \"%.1f\", $memory * 1024 / $bytes }")"
done
