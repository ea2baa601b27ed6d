#!/bin/sh
# Names of 16 bits in an open job, and the 256 hazards that may stand together.
set -eu
tmp=$(mktemp -d)
trap 'rm -rf "$tmp"' EXIT
$CC -std=c99 -O2 -Wall -Wextra -Werror -pedantic -Iinclude tests/vendor/names.c -L"$LIBDIR" -lbarrier_engine -o "$tmp/names"
"$tmp/names"
echo "names: 256 hazards under names to 65535, planned as their job; one more is refused 15, and has room after a withdrawal"
