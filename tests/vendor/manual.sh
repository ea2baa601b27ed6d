#!/bin/sh
# The worked cases of the manual: barrier.h says what the engine replies. The
# README's lines in Python run, and those in Rust are of the program in
# bindings/rust/README.md.
set -eu
tmp=$(mktemp -d)
trap 'rm -rf "$tmp"' EXIT

fail() {
    echo "manual: $1" >&2
    exit 1
}

# A text as one line of words: without the marks of a comment, a table or code.
words() { # FILE
    sed 's/^ \* / /; s/[|`]/ /g' "$1" | tr -s ' \n' '  '
}

$CC -std=c99 -O2 -Wall -Wextra -Werror -pedantic -Iinclude tests/vendor/manual.c -L"$LIBDIR" -lbarrier_engine -o "$tmp/manual"
"$tmp/manual" >"$tmp/cases" || fail "status $?"
words include/barrier.h >"$tmp/header"
while IFS= read -r case; do
    grep -qF -- "$case" "$tmp/header" || fail "barrier.h does not say '$case'"
done <"$tmp/cases"
echo "manual: $(wc -l <"$tmp/cases") worked cases of barrier.h as the engine replies them"

sed -n '/^    from barrier_engine import/,/^    print/s/^    //p' README.md >"$tmp/first.py"
printed=$(PYTHONPATH=bindings/python BARRIER_LIBRARY="$(pwd)/$BUILD/libbarrier_engine.so" python3 "$tmp/first.py") || fail "the README's lines in Python end with $?"
grep -qF "prints \`$printed\`" README.md || fail "the README does not say that its lines in Python print $printed"
sed -n '/^    let job = Job/,/^    }/p' README.md >"$tmp/first.rs"
[ -s "$tmp/first.rs" ] || fail "the README has no lines in Rust"
while IFS= read -r line; do
    grep -qxF -- "$line" bindings/rust/README.md || fail "bindings/rust/README.md does not have '$line'"
done <"$tmp/first.rs"
echo "manual: the README's lines in Python print what it says; those in Rust are of bindings/rust/README.md"
