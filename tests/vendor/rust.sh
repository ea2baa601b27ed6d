#!/bin/sh
# The crate for Rust: its own tests, with the engine, and its comparison with the
# header, which has to find another version; then the tests of the programs.
set -eu
tmp=$(mktemp -d)
trap 'rm -rf "$tmp"' EXIT

tested() { # PACKAGE OPTIONS..
    package=$1
    shift
    BARRIER_LIB_DIR="$LIBDIR" cargo test --quiet --offline --locked --manifest-path "$package/Cargo.toml" --target-dir "$BUILD/rust" "$@" >>"$tmp/said" 2>&1
}
fail() {
    cat "$tmp/said" >&2
    echo "rust: $1" >&2
    exit 1
}

tested bindings/rust || fail "the tests of bindings/rust failed"
tested examples/rust || fail "the tests of examples/rust failed"
passed=$(awk '/^test result: ok/ { sum += $4 } END { print sum }' "$tmp/said")
[ "$passed" -ge 27 ] || fail "only $passed tests"

sed 's/^#define BARRIER_VERSION "[0-9]*/&0/' include/barrier.h >"$tmp/barrier.h"
: >"$tmp/said"
if BARRIER_HEADER="$tmp/barrier.h" tested bindings/rust --test header the_package_has_the_version; then
    fail "the crate takes a header of another version for its own"
fi
grep -q '^test the_package_has_the_version_of_the_header ... FAILED$\|the_package_has_the_version_of_the_header --- FAILED' "$tmp/said" || fail "the comparison of versions did not run"
echo "rust: $passed tests passed"
