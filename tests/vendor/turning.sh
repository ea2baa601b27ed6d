#!/bin/sh
# Driving on the left, and carriageways towards falling stations: the helpers
# against barrier.h's figures, round trip, and against the engine on a road that
# needs no turning.
set -eu
tmp=$(mktemp -d)
trap 'rm -rf "$tmp"' EXIT
$CC -std=c99 -O2 -Wall -Wextra -Werror -pedantic -Iinclude tests/vendor/turning.c -L"$LIBDIR" -lbarrier_engine -o "$tmp/turning"
"$tmp/turning"
echo "turning: sides swapped and roads turned round give barrier.h's figures, undo themselves and plan what the engine plans without them"
