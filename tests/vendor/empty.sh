#!/bin/sh
# NULL with length 0 for the job, the output, each schedule, the ranges and an open
# job; the states of an open job without hazards.
set -eu
tmp=$(mktemp -d)
trap 'rm -rf "$tmp"' EXIT
$CC -std=c99 -O2 -Wall -Wextra -Werror -pedantic -Iinclude tests/vendor/empty.c -L"$LIBDIR" -lbarrier_engine -o "$tmp/empty"
"$tmp/empty"
echo "empty: NULL with length 0 for job, output, schedules, ranges and open job, states of an empty one, replies as stated"
