#!/bin/sh
# Stations on the national chainage, counted from a datum far away: every call, the
# ends of the ranges, numbers of six bytes, and the memory of an open job.
set -eu
tmp=$(mktemp -d)
trap 'rm -rf "$tmp"' EXIT
$CC -std=c99 -O2 -Wall -Wextra -Werror -pedantic -Iinclude tests/vendor/stations.c -L"$LIBDIR" -lbarrier_engine -o "$tmp/stations"
"$tmp/stations"
echo "stations: roads, numbers and runs to their last station, planned, asked and open, replies as stated"
