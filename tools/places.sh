#!/bin/sh
# Counts, point by point, the places in src/ that older forms of the language left (docs/DESIGN-PASS.md). With a word behind it, as
# `tools/places.sh 3`, it lists the places of that point.
cd "$(dirname "$0")/.." || exit 1
asked=$1

# found POINT NAME PATTERN: lines of src/ with the pattern, comments aside.
found() {
    lines=$(grep -nE "$3" crates/*/src/*.rt | grep -vE '^[^:]*:[0-9]*: *//')
    if [ -z "$asked" ]; then
        printf '%s %-62s %5d\n' "$1" "$2" "$(printf '%s' "$lines" | grep -c .)"
    elif [ "$asked" = "$1" ]; then
        printf '%s\n' "-- $2" "$lines"
    fi
}

found 1 'enums, of any kind' '^ *(pub |pub\(crate\) )?enum '
found 1 'structs of a value and what follows it' '^ *(pub )?next: Next,'
found 1 'refusals as numbers' '(refusal|number): u8|: u8 = [0-9];|refusal: [0-9],|refusal (==|!=) 0|Refused\([a-z0-9]*\)$|unread\([0-9]'
found 1 'matches on an own none' '::(Absent|Nothing|Other|Full|Bad)\b'
found 2 'functions and types that name a width or a count' '^ *(pub |pub\(crate\) )?(fn|struct|enum) [A-Za-z_]*(8|16|32|64|[a-z]2|[a-z]3|[a-z]4)([A-Z][a-z]*)?(_[a-z]+)?\b'
found 3 'while loops' '\bwhile\b'
found 3 'for loops over numbers' '\bfor [a-z_]+ in .*\.\.'
found 4 'types that derive no more than Copy' '#\[derive\(Clone, Copy\)\]'
found 4 'conversions between numbers and cases by hand' 'fn [a-z]+_(from|number)\('
found 5 'lent index as a parameter' '^    index: &(mut )?\[u32\],|[(,] ?index: &(mut )?\[u32\]'
found 5 'lent list of free slots as a parameter' '^    free: &mut \[u16\],|[(,] ?free: &mut \[u16\]'
found 5 'that a slot lies in memory, as a clause' '256 \+ 624 \* i \+ 624 ≤ length'
found 5 'that a state lies in memory, as a clause' '256 \+ 640 \* capacity ≤ length'
found 6 'a list with its length beside it' '^    n: usize,|leaving: &(mut )?\[u16\], n: usize'
found 6 'a buffer with its length beside it' '(line|out|chunk): &(mut )?\[u8\].*(at|from|end|filled): usize|filled: usize|fn put[a-z_]*\('
found 7 'a step chosen by a letter or a number' "^ *b'[a-z]'( \| b'[a-z]')* =>"
if [ -z "$asked" ]; then
    answers=$(find crates -path '*/out' -prune -o -path '*/proofs/*' -name '*.antt' -print)
    printf '8 %-62s %5d\n' 'files of answers and invariants' "$(printf '%s\n' "$answers" | grep -cE '/(Answers|Invariants|Proof)\.antt$')"
    printf '8 %-62s %5d\n' 'lines in them' "$(printf '%s\n' "$answers" | grep -E '/(Answers|Invariants|Proof)\.antt$' | xargs cat | wc -l)"
    printf '8 %-62s %5d\n' 'lines of lemmas beside them' "$(printf '%s\n' "$answers" | grep -vE '/(Answers|Invariants|Proof)\.antt$' | xargs cat | wc -l)"
fi
