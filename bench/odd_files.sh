#!/bin/sh
# Gives the program odd files to read and to write, and looks at each status and line: the lines of
# the tables in docs/hostile.md that can be made here. Prints `as said` or `WRONG`, then what was
# tried; its status is 1 where anything is wrong. Where root runs it, files without rights are tried
# as nobody, with setpriv.
#
# usage: bench/odd_files.sh      (PROGRAM=FILE tries that program in place of this repository's;
#     MEMORY=720000 is the limit in kilobytes where a file never ends)

top=$(dirname "$(dirname "$(readlink -f "$0")")")
folder=$(mktemp -d)
trap 'rm -rf "$folder"' EXIT
if [ -z "$PROGRAM" ]; then
    # These words have no reading.
    "$top/circom_gold" > /dev/null || [ $? -eq 64 ] || exit 70
    PROGRAM=$top/crates/circom_cli/out/circom_cli
fi
. "$top/allocator.sh"
cp "$top"/examples/mul.circom "$top"/examples/m.r1cs "$top"/examples/m.wtns "$folder"
cd "$folder" || exit 70
chmod 755 .
echo '{"a":3,"b":"11"}' > i.json
compiled='compiled: wires 4, constraints 1'
fault='fault: store'
wrong=0

# said WHAT STATUS LINE IS_STATUS: compares the status, and the line with that in the file `said`.
said() {
    if [ "$4" = "$2" ] && [ "$(cat said)" = "$3" ]; then
        echo "as said: $1"
    else
        echo "WRONG: $1: status $4, $(head -c 200 said)"
        wrong=1
    fi
}

# try WHAT STATUS LINE WORD ..: the program with these words.
try() {
    what=$1 status=$2 line=$3
    shift 3
    "$PROGRAM" "$@" > said 2> errors
    said "$what" "$status" "$line" $?
}

# holds WHAT FILE OTHER: whether two files have the same bytes.
holds() {
    if cmp -s "$2" "$3"; then echo "as said: $1"; else echo "WRONG: $1" && wrong=1; fi
}

# Files that are read.
mkdir inner
ln -s m.r1cs link; ln -s none dangling; ln -s loop loop
mkfifo pipe
: > empty
try 'a name that is not there' 1 'refused: no: no such file' check no m.wtns
try 'in a folder that is not there' 1 'refused: no/m: no such file' check no/m m.wtns
try 'an empty name' 1 'refused: : no such file' check '' m.wtns
try 'a link to nothing' 1 'refused: dangling: no such file' check dangling m.wtns
try 'a link' 0 satisfied check link m.wtns
try 'a folder' 3 "$fault" check inner m.wtns
try 'a name below a file' 3 "$fault" check m.r1cs/m m.wtns
try 'a link to itself' 3 "$fault" check loop m.wtns
try 'a name of 5,000 bytes' 3 "$fault" check "$(printf '%05000d' 0)" m.wtns
try 'a name that is not UTF-8' 64 "$("$PROGRAM")" check "$(printf '\377')" m.wtns
try 'an empty source' 1 'refused: E5 Main at empty:1:1 in -' compile empty OUT
try 'an empty file of constraints' 1 'refused: empty: F3 Truncated at byte 0' check empty m.wtns
try 'an empty input' 1 'refused: I1 NotJson' witness mul.circom empty OUT
try '/dev/null' 1 'refused: /dev/null: F3 Truncated at byte 0' check /dev/null m.wtns
cat m.r1cs > pipe &
try 'a pipe with a writer' 0 satisfied check pipe m.wtns
timeout 2 "$PROGRAM" check pipe m.wtns > said
said 'a pipe without a writer: the program waits' 124 '' $?
"$PROGRAM" check /dev/stdin m.wtns < m.r1cs > said
said 'standard input' 0 satisfied $?
head -c 16777217 /dev/zero > long
try 'a source with a byte too many' 1 'refused: E19 Limit Source 16777217 at long:1:1 in -' \
    compile long OUT
echo 'include "inner"; component main = Mul();' > folder.circom
try 'an include that is a folder' 3 "$fault" compile folder.circom OUT
for command in 'check /dev/zero m.wtns' 'compile /dev/zero OUT' \
    'witness mul.circom /dev/zero OUT'; do
    try "a file that never ends: $command" 3 "$fault" $command
    (ulimit -Sv "${MEMORY:-720000}"; exec "$PROGRAM" $command) > said 2> errors
    said "a file that never ends, with a limit of memory: $command" 4 '' $?
done
if [ -e OUT ]; then echo 'WRONG: a refused command wrote a file'; wrong=1; fi

# Files that are written.
try 'a file is made' 0 "$compiled" compile mul.circom OUT
holds 'and is whole' OUT m.r1cs
try 'OUT in a folder that is not there' 3 "$fault" compile mul.circom no/OUT
try 'OUT is a folder' 3 "$fault" compile mul.circom inner
try 'OUT on a full disk' 3 "$fault" compile mul.circom /dev/full
try 'OUT is /dev/null' 0 "$compiled" compile mul.circom /dev/null
ln -sf aim pointer
try 'OUT is a link' 0 "$compiled" compile mul.circom pointer
holds 'the file behind it is written' aim m.r1cs
if [ ! -L pointer ]; then echo 'WRONG: the link is gone'; wrong=1; fi
echo before > one; ln one two
try 'OUT has two names' 0 "$compiled" compile mul.circom one
holds 'both have the bytes' two m.r1cs
cp mul.circom same.circom
try 'OUT is the source' 0 "$compiled" compile same.circom same.circom
holds 'the source is lost' same.circom m.r1cs
cp m.wtns same.wtns
try 'OUT is the list of values' 0 'public: values 1' public m.r1cs same.wtns same.wtns
cat pipe > through &
try 'OUT is a pipe with a reader' 0 "$compiled" compile mul.circom pipe
wait $!
holds 'who reads has the bytes' through m.r1cs
printf 'before, and longer than what is written: %0500d' 0 > OUT
try 'OUT was longer before' 0 "$compiled" compile mul.circom OUT
holds 'its end is gone' OUT m.r1cs
chmod 640 OUT
try 'OUT has rights of its own' 0 "$compiled" compile mul.circom OUT
if [ "$(stat -c %a OUT)" != 640 ]; then echo 'WRONG: its rights are others'; wrong=1; fi
: > OUT.0.new
try 'the name beside OUT is taken' 0 "$compiled" compile mul.circom OUT
if [ -s OUT.0.new ]; then echo 'WRONG: the file beside OUT was written'; wrong=1; fi
rm OUT.0.new
echo before > OUT
(ulimit -f 0; trap '' XFSZ; exec "$PROGRAM" compile mul.circom OUT 2> /dev/null) | cat > said
echo "$fault" > wanted
holds 'OUT that no byte can be written to' said wanted
echo before > wanted
holds 'OUT on a full disk is as it was' OUT wanted
if [ "$(echo OUT*)" != OUT ]; then echo 'WRONG: a file beside OUT stays'; wrong=1; fi

# The standard output.
"$PROGRAM" check m.r1cs m.wtns > /dev/full; echo $? > status; : > said
said 'standard output on a full disk' 3 '' "$(cat status)"
"$PROGRAM" check m.r1cs m.wtns >&-; echo $? > status
said 'a closed standard output' 3 '' "$(cat status)"
rm -f OUT
"$PROGRAM" compile mul.circom OUT > /dev/full; echo $? > status
said 'the same where a file is written' 3 '' "$(cat status)"
holds 'it is whole' OUT m.r1cs
(sleep 1; "$PROGRAM" check m.r1cs m.wtns; echo $? > status) | true
sleep 3
said 'a pipe that nobody reads' 3 '' "$(cat status)"

# Rights, which root has all of.
as_other=
if [ "$(id -u)" = 0 ]; then as_other='setpriv --reuid=65534 --regid=65534 --clear-groups'; fi
cp m.r1cs closed; chmod 0 closed; touch fixed; chmod 444 fixed
for words in 'check closed m.wtns' 'compile mul.circom fixed' 'compile mul.circom inner/OUT'; do
    chmod 555 inner
    $as_other "$PROGRAM" $words > said 2> errors
    said "no right: $words" 3 "$fault" $?
done
exit $wrong
