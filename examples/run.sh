#!/bin/sh
# Builds both probes, runs them, and compares what they print with expected.txt. Says in a line for each what it did, and fails at the
# first that is not as it is to be.
#
#     sh examples/run.sh
#
# The library is libbraidpuddle.a in the folder that BRAIDPUDDLE_LIB names, else in build/lib. CC names the C compiler.
set -eu
BRAIDPUDDLE_LIB=$(cd "${BRAIDPUDDLE_LIB:-$(dirname "$0")/../build/lib}" && pwd)
export BRAIDPUDDLE_LIB
cd "$(dirname "$0")/.."
built=build/examples
mkdir -p "$built"

fail() {
    echo "examples: $1" >&2
    exit 1
}

# compare NAME PROGRAM: the program's output is the expected one.
compare() {
    "$2" >"$built/$1.txt" || fail "the $1 probe failed"
    diff examples/expected.txt "$built/$1.txt" >&2 || fail "the $1 probe prints something else"
    echo "$1 probe: built, run, $(wc -l <"$built/$1.txt") lines as expected"
}

[ -f "$BRAIDPUDDLE_LIB/libbraidpuddle.a" ] || fail "there is no libbraidpuddle.a in $BRAIDPUDDLE_LIB"

"${CC:-cc}" -std=c99 -O2 -Wall -Wextra -Wpedantic -Werror -Iinclude -o "$built/c-probe" examples/c/probe.c "$BRAIDPUDDLE_LIB/libbraidpuddle.a" ||
    fail "the C probe does not build"
compare C "$built/c-probe"

cargo build --quiet --release --offline --manifest-path examples/rust/Cargo.toml --target-dir "$built/cargo" ||
    fail "the Rust probe does not build"
compare Rust "$built/cargo/release/probe"
