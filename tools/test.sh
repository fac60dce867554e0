#!/bin/sh
# Passes all tests. First `rt ci`: every proof, every must-fail edit, every program. Then what stands on what was proved: `replay` on its
# inputs, the library under C and Rust, and where the Rust's sources are at hand the lists of known answers made again, and the library
# beside the Rust and a plain model. The last line is that of `rt ci`, said again.
set -eu
cd "$(dirname "$0")/.."

built=build/compare

say() {
    echo "test: $1"
}

# compare WORDS: cargo on tools/compare.
compare() {
    command=$1
    shift
    cargo "$command" --quiet --release --offline --manifest-path tools/compare/Cargo.toml --target-dir "$built" "$@"
}

# make_again BINARY CRATE: makes the list that the crate replays, and compares it with the one that is kept.
make_again() {
    "$built/release/$1" >"build/$1.txt"
    cmp "build/$1.txt" "crates/$2/stdin"
    say "the list of $2 is what the Rust gives: $(grep -c '^[a-z]' "build/$1.txt") answers"
}

# samples_again: makes the inputs of `replay` again with the model, and compares them with those that are kept.
samples_again() {
    rm -rf build/samples
    mkdir -p build/samples
    "$built/release/samples" build/samples
    for file in $(cd build/samples && find . -type f); do
        cmp "build/samples/$file" "$file"
    done
    say "the inputs of replay are what the model gives: $(find build/samples -type f | wc -l) files"
}

# beside_the_rust: what needs the Rust's sources. BRAIDPUDDLE_RUST_SRC names their folder.
beside_the_rust() {
    compare build
    make_again key_answers vectors
    make_again record_answers folds
    samples_again
    compare test
    tools/compare/run --scripts 2000 --calls 100000 --keys 100000 --seed 1
    sh tests/replay/run.sh crates/replay/out/replay "$built/release"
}

command -v cargo >/dev/null 2>&1 || apt-get install -y cargo
command -v cc >/dev/null 2>&1 || apt-get install -y gcc
mkdir -p build

(rt ci 2>&1 && echo 0 >build/ci.status || echo 1 >build/ci.status) | tee build/ci.txt
[ "$(cat build/ci.status)" = 0 ] || exit 1
last=$(tail -n 1 build/ci.txt)
case $last in
*' passed, 0 failed') ;;
*) exit 1 ;;
esac
# `rt ci` passes where the text that an edit changes is gone, or where its new text cannot be read.
if grep -E 'BAD EDIT|^rt: ok.*, [0-9]+ bad' build/ci.txt; then
    echo "test: wrong programs that were not tried"
    exit 1
fi

sh tools/library.sh >build/library.txt 2>&1 || { tail -n 20 build/library.txt; exit 1; }
BRAIDPUDDLE_LIB=$(pwd)/build/lib
export BRAIDPUDDLE_LIB
cargo test --quiet --offline --manifest-path rust/Cargo.toml --target-dir build/rust
sh examples/run.sh

sources=${BRAIDPUDDLE_RUST_SRC:-../shared/docs/src}
if [ -d "$sources" ]; then
    BRAIDPUDDLE_RUST_SRC=$(cd "$sources" && pwd)
    export BRAIDPUDDLE_RUST_SRC
    beside_the_rust
else
    say "the Rust's sources are not at hand: the lists of known answers were replayed as they stand"
    sh tests/replay/run.sh crates/replay/out/replay
fi
echo "$last"
