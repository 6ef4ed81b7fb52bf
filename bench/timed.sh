# Sourced by the scripts here that time the program: builds the program where that is needed, and
# goes to a folder that is removed in the end.
set -e
top=$(dirname "$(dirname "$(readlink -f "$0")")")
folder=$(mktemp -d)
trap 'rm -rf "$folder"' EXIT
# These words have no reading.
"$top/circom_gold" > /dev/null || [ $? -eq 64 ]
program=$top/crates/circom_cli/out/circom_cli
. "$top/allocator.sh"
cd "$folder"

# nanoseconds BEGINNING: the least nanoseconds of RUNS compilations of source.circom, whose line
# must begin so.
nanoseconds() {
    for _ in $(seq "${RUNS:-5}"); do
        start=$(date +%s%N)
        said=$("$program" compile source.circom made.r1cs || true)
        end=$(date +%s%N)
        case $said in
            "$1"*) echo $((end - start)) ;;
            *) echo "$said" >&2; exit 1 ;;
        esac
    done | sort -n | head -n 1
}
