#!/bin/sh
# A hazard's reach, of a job and of an open one.
set -eu
tmp=$(mktemp -d)
trap 'rm -rf "$tmp"' EXIT
$CC -std=c99 -O2 -Wall -Wextra -Werror -pedantic -Iinclude tests/vendor/reach.c -L"$LIBDIR" -lbarrier_engine -o "$tmp/reach"
"$tmp/reach"
echo "reach: envelope, overhangs and stretch at each end, nothing changed outside of it by a withdrawal, refusals as stated"
