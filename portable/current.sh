#!/bin/sh
# current.sh: fails where portable/barrier_engine.c is not, byte for byte, what the MIR of the proved crates gives.
set -eu
cd "$(dirname "$0")/.."
made=$(mktemp)
trap 'rm -f "$made" "$made.new"' EXIT
sh portable/make.sh "$made"
cmp "$made" portable/barrier_engine.c || {
    echo "portable: barrier_engine.c is not what the proved MIR gives; make portable makes it again" >&2
    exit 1
}
