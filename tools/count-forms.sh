#!/usr/bin/env bash
# Counts the places in src/ that docs/DESIGN-PASS.md speaks of, one row a pattern: the point, the count, what is counted. With -l it lists the places of each row.
# Another checkout is counted by naming its folder: tools/count-forms.sh [-l] [FOLDER]. Twins (point 2) are counted apart, by reading: no pattern tells them.
set -u
list=0
[ "${1:-}" = "-l" ] && { list=1; shift; }
cd "${1:-$(dirname "$0")/..}"

row() { # POINT WHAT PATTERN
    local places
    places=$(grep -nE -- "$3" crates/*/src/*.rt)
    printf '%s\t%s\t%s\n' "$1" "$(printf '%s' "$places" | grep -c '')" "$2"
    [ "$list" = 1 ] && printf '%s\n' "$places" | sed 's/^/    /'
}

row 1 "own enums, of any shape" '^(pub )?enum '
row 1 "a number of refusal or a flag beside a value, in a struct" '^    (pub )?(refusal: u8|(ok|go|some|several|read|takes|cut): bool),'
row 1 "a constant of one byte: a refusal, a kind, a mark or a byte of text" '^(pub )?const [A-Z_0-9]+: u8 = [0-9]+;'
row 1 "functions that give one byte: a number of refusal, a kind, a set" '-> u8$'
row 3 "while and loop" '^ +(while|loop)\b'
row 4 "a field copied into a local of its name" '^ +let (mut )?([a-z_]+) = [a-z_.]+\.\2;'
row 4 "a field written out as itself, f: f" '^ +([a-z_]+): \1,$'
row 4 "a loan lent on by hand, &mut *x" '&mut \*'
row 5 "functions of a buffer and a place" '^ *(pub )?fn .*buf: &mut \[u8\]|^ +buf: &mut \[u8\],'
row 5 "functions of bytes and a place in them" '(bytes|line|text|word): &\[u8\], (at|from)'
row 5 "clauses that say again that there are seven replicas" 'length (bench|b)\.replicas ≡ 7'
row 5 "functions that give one field" '^    ensures \{ result ≡ [a-z]+\.[a-z_.]+ \}'
