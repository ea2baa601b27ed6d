#!/bin/sh
# The smallest barrier offset that keeps an approach as short as wanted.
set -eu
tmp=$(mktemp -d)
trap 'rm -rf "$tmp"' EXIT
$CC -std=c99 -O2 -Wall -Wextra -Werror -pedantic -Iinclude tests/vendor/offset.c -L"$LIBDIR" -lbarrier_engine -o "$tmp/offset"
"$tmp/offset"
echo "offset: the smallest at each end, none where there is none, refusals as stated; drawn with it the approach is short enough"
