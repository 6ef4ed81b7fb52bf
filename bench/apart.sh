# Sourced by the scripts here that time a small program, mostly beside one in C. The program is made
# in a folder of its own, outside the repository, and built once; that proves the crates below it,
# if they aren't proved on this machine yet.

# The lines of crates.txt of these crates and of those that they stand on, the lowest first.
lines_of() {
    awk -v names="$*" '
        function visit(name, i, count, below) {
            if (name in seen || !(name in line)) return
            seen[name] = 1
            count = split(uses[name], below, " ")
            for (i = 1; i <= count; i++) visit(below[i])
            print line[name]
        }
        /^[a-z]/ { split($0, half, ":"); line[half[1]] = $0; uses[half[1]] = half[2] }
        END { count = split(names, wanted, " "); for (k = 1; k <= count; k++) visit(wanted[k]) }
    ' "$top/crates.txt"
}

# make_program FOLDER_bench CRATE ..: builds the program of bench/FOLDER over these crates and those
# that they stand on, and bench/FOLDER.c, if there is one. Sets work, and the two programs, ours and
# plain.
make_program() {
    name=$1
    shift
    top=$(cd "$(dirname "$0")/.." && pwd)
    work=${TMPDIR:-/tmp}/$name.$(id -u)
    mkdir -p "$work/crates/$name/src"
    lines_of "$@" > "$work/crates.txt"
    crates=$(sed 's/:.*//' "$work/crates.txt")
    for crate in $crates; do
        mkdir -p "$work/crates/$crate"
        for part in src specs proofs; do
            rm -rf "$work/crates/$crate/$part"
            if [ -d "$top/crates/$crate/$part" ]; then cp -r "$top/crates/$crate/$part" "$work/crates/$crate/"; fi
        done
    done
    folder=${name%_bench}
    cp "$top/HANDLES" "$work/"
    cp "$top/bench/$folder/main.txt" "$work/crates/$name/src/main.rt"
    echo "$name:" $crates >> "$work/crates.txt"
    echo "building $name" >&2
    (cd "$work/crates/$name" && rt run -- 1 > "$work/build.log" 2>&1) || { tail -5 "$work/build.log" >&2; exit 1; }
    ours=$work/crates/$name/out/$name
    plain=$work/${folder}_c
    if [ -f "$top/bench/$folder.c" ]; then ${CC:-cc} -O2 -o "$plain" "$top/bench/$folder.c"; fi
}

# best FILE PROGRAM WORD ..: the least processor time of the runs, whose first line goes to the
# file.
best() {
    first=$1
    shift
    least=
    for _ in $(seq "$runs"); do
        seconds=$( { /usr/bin/time -f %U "$@" > "$work/out"; } 2>&1 )
        least=$(printf '%s\n%s\n' "$seconds" "$least" | grep . | sort -n | head -1)
    done
    head -1 "$work/out" > "$first"
    echo "$least"
}
