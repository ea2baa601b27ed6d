#!/bin/sh
# Approaches that run into the neighbouring contract: schedules cut at the road's
# ends, the overhangs beside them, and no level outside the road.
set -eu
tmp=$(mktemp -d)
trap 'rm -rf "$tmp"' EXIT
$CC -std=c99 -O2 -Wall -Wextra -Werror -pedantic -Iinclude tests/vendor/overhang.c -L"$LIBDIR" -lbarrier_engine -o "$tmp/overhang"
"$tmp/overhang"
echo "overhang: K8's second job and one over both ends of its road, planned and open, near and far away, replies and outputs as stated"
