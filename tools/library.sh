#!/bin/sh
# Makes build/lib/libbraidpuddle.a, the library for C and Rust: the calls and the forms, each proved and compiled by itself, in one archive.
# The compiler builds a crate as a library or as a static library, not as both: braidpuddle_c and braidpuddle_forms_c export what
# braidpuddle and braidpuddle_forms have.
set -eu
cd "$(dirname "$0")/.."

for part in braidpuddle_c braidpuddle_forms_c; do
    (cd "crates/$part" && rt lib)
done

rm -rf build/lib
mkdir -p build/lib/objects
for part in braidpuddle_c braidpuddle_forms_c; do
    ar p "crates/$part/out/lib$part.a" "$part.o" >"build/lib/objects/$part.o"
done
ar rcs build/lib/libbraidpuddle.a build/lib/objects/*.o

# README.md and the header promise that it needs memcpy and memset alone.
names=$(nm -u build/lib/libbraidpuddle.a)
needs=$(echo "$names" | awk 'NF == 2 && $2 != "memcpy" && $2 != "memset" { print $2 }')
if [ -n "$needs" ]; then
    echo "library: it needs more from outside than memcpy and memset:" $needs
    exit 1
fi
echo "made build/lib/libbraidpuddle.a"
