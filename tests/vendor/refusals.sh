#!/bin/sh
# Refusals are one text in C, Rust and Python: every call, number and value, and
# what can be done.
set -eu
tmp=$(mktemp -d)
trap 'rm -rf "$tmp"' EXIT

fail() {
    echo "refusals: $1" >&2
    exit 1
}

$CC -std=c99 -O2 -Wall -Wextra -Werror -pedantic -Iinclude tests/vendor/refusals.c -o "$tmp/refusals"
"$tmp/refusals" >"$tmp/rows"
[ "$(wc -l <"$tmp/rows")" -eq 2128 ] || fail "not 16 calls by 19 numbers by 7 values"
[ "$(sed 's/.*: //' "$tmp/rows" | sort -u | wc -l)" -gt 60 ] || fail "too few texts"
BARRIER_REFUSALS="$tmp/rows" BARRIER_LIB_DIR="$LIBDIR" cargo test --quiet --locked --manifest-path bindings/rust/Cargo.toml --target-dir "$BUILD/rust" --test refusals >"$tmp/said" 2>&1 || {
    cat "$tmp/said" >&2
    fail "Rust has other words"
}
# That it compares: one letter more is found.
sed '700s/$/./' "$tmp/rows" >"$tmp/other"
if BARRIER_REFUSALS="$tmp/other" BARRIER_LIB_DIR="$LIBDIR" cargo test --quiet --locked --manifest-path bindings/rust/Cargo.toml --target-dir "$BUILD/rust" --test refusals >"$tmp/said" 2>&1; then
    fail "the test in Rust takes other words"
fi
cat >"$tmp/rows.py" <<'END'
from barrier_engine.refused import refusal, remedy
CALLS = ("plan", "level", "corners", "offset", "quantity", "quantities", "lookup", "layout", "open", "add",
         "withdraw", "open_schedule", "keep", "return", "reach", "open_reach")
for call in (f"barrier_{name}" for name in CALLS):
    for number in range(19):
        for value in (0, 1, 7, 13, 14, 15, 16):
            print(f"{call} {number} {value}: {refusal(call, number, value)} | {remedy(call, number, value)}")
END
PYTHONPATH=bindings/python python3 "$tmp/rows.py" >"$tmp/python" || fail "the rows in Python end with $?"
diff "$tmp/rows" "$tmp/python" || fail "Python has other words"
echo "refusals: 2128 rows in words, the same in C, Rust and Python"
