#!/bin/sh
# Runs a program that does what `replay` does on the inputs beside this file, and compares what it prints with what is kept.
#
#     sh tests/replay/run.sh [--whole] PROGRAM [COMPARE]
#
# COMPARE is the folder of the binaries of tools/compare: with it, more inputs are made at random and compared with the model.
# --whole is for a program that prints only once its input is over, as the model does.
# Says how many runs were as they are to be, and fails at the first that was not.
set -eu
export LC_ALL=C

whole=no
if [ "$1" = --whole ]; then
    whole=yes
    shift
fi
program=$(cd "$(dirname "$1")" && pwd)/$(basename "$1")
compare=
[ $# -lt 2 ] || compare=$(cd "$2" && pwd)
cd "$(dirname "$0")"

work=$(mktemp -d)
trap 'rm -rf "$work"' EXIT
passed=0

# No run takes longer.
seconds=300

fail() {
    echo "$1" >&2
    exit 1
}

# replay: the program on its standard input; what it prints goes to out, what it complains of to err.
replay() {
    timeout "$seconds" "$program" >"$work/out" 2>"$work/err"
}

# same NAME EXPECTED: what was printed last is as it is to be, with no complaint.
same() {
    cmp "$2" "$work/out" || fail "$1: another output"
    [ ! -s "$work/err" ] || fail "$1: a complaint"
    passed=$((passed + 1))
}

# broken NAME: the run was broken off with a complaint and no total.
broken() {
    [ -s "$work/err" ] || fail "$1: no complaint"
    ! grep -q '^total' "$work/out" || fail "$1: a total all the same"
    passed=$((passed + 1))
}

# each_input: at once from a file, and in pieces from a pipe.
each_input() {
    for input in *.bin; do
        name=${input%.bin}
        replay <"$input" || fail "$name: a status of its own"
        same "$name" "$name.out"
        for size in 1 7 4096; do
            dd if="$input" bs=$size 2>"$work/dd" | replay
            same "$name in pieces of $size" "$name.out"
        done
    done
    echo "$passed runs of the inputs"
}

# cuts: the example cut at every byte, and the example with a pause at every byte.
cuts() {
    length=$(wc -c <example.bin)
    cut=0
    : >"$work/cuts"
    while [ "$cut" -le "$length" ]; do
        head -c "$cut" example.bin | replay
        echo "cut $cut" >>"$work/cuts"
        cat "$work/out" >>"$work/cuts"
        (
            head -c "$cut" example.bin
            sleep 0.01
            tail -c +$((cut + 1)) example.bin
        ) | replay
        same "the example with a pause at $cut" example.out
        cut=$((cut + 1))
    done
    cmp example.cuts "$work/cuts" || fail "the example cut: another output"
    passed=$((passed + cut))
    echo "$cut cuts of the example, and as many pauses in it"
}

# repeat FILE COUNT: the file so many times.
repeat() {
    yes "$1" | head -n "$2" | xargs cat
}

# long: the round, which leaves nothing open, again and again.
long() {
    rounds=1640
    tail -c +3 round.bin >"$work/body"
    sed '$d' round.out >"$work/lines"
    packets=$(sed -n 's/^total \([0-9]*\) .*/\1/p' round.out)
    records=$(wc -l <"$work/lines")
    clean=$(grep -c '^Fin' "$work/lines")
    (head -c 2 round.bin && repeat "$work/body" $rounds) >"$work/long.bin"
    repeat "$work/lines" $rounds >"$work/long.out"
    echo "total $((rounds * packets)) $((rounds * records)) $((rounds * clean))" >>"$work/long.out"
    replay <"$work/long.bin"
    same "the long input" "$work/long.out"
    for size in 7 4099 70000; do
        dd if="$work/long.bin" bs=$size 2>"$work/dd" | replay
        same "the long input in pieces of $size" "$work/long.out"
    done
    echo "$((rounds * packets)) packets in one input"
}

# failures: standard input cannot be read, standard output cannot be written.
failures() {
    replay <. || true
    broken "a directory as input"
    timeout "$seconds" "$program" <example.bin >/dev/full 2>"$work/err" || true
    broken "a full device as output"
    # The reader goes after a line. The program complains, and ends with a status of its own.
    (trap '' PIPE && timeout "$seconds" "$program" <"$work/long.bin" 2>"$work/err" || true) | head -n 1 >"$work/out"
    broken "a closed pipe"
    (timeout "$seconds" "$program" <"$work/long.bin" 2>"$work/err" || echo "$?" >"$work/status") | head -n 1 >"$work/out"
    [ -s "$work/status" ] || fail "a closed pipe: no status of its own"
    passed=$((passed + 1))
    echo "4 failed reads and writes"
}

# at_once: a record's line is there while the input still goes on.
at_once() {
    (
        cat example.bin
        sleep 2
    ) | replay &
    sleep 1
    grep -q '^Fin 0 400 3 2 168 114$' "$work/out" || fail "a finished record is not printed at once"
    ! grep -q '^total' "$work/out" || fail "a total before the end"
    wait
    same "the example with a pause at its end" example.out
    echo "1 line that was there at once"
}

# made WORDS: an input from tools/compare, compared with the model.
made() {
    "$compare/samples" "$@" >"$work/made.bin"
    "$compare/replay_model" <"$work/made.bin" >"$work/made.out"
    replay <"$work/made.bin"
    same "samples $*" "$work/made.out"
}

at_random() {
    seed=1
    while [ "$seed" -le 300 ]; do
        made --script "$seed"
        made --spoilt "$seed"
        seed=$((seed + 1))
    done
    made --mixed 1 1000
    made --mixed 2 5000
    made --mixed 3 100000
    echo "603 inputs at random"
}

each_input
cuts
long
failures
[ "$whole" = yes ] || at_once
[ -z "$compare" ] || at_random
echo "replay: $passed passed"
