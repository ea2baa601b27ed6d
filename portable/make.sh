#!/bin/sh
# make.sh FILE [--plain]: writes the engine as C to FILE, from the MIR of the proved crates (rt lib, in crates/barrier_engine).
set -eu
cd "$(dirname "$0")/.."
file=$1
shift
kit=$(dirname "$(rt doc)")
python3 -B portable/translator --rlibs crates/*/out/rlib "$kit/rlibs" --crate barrier_engine --header include/barrier.h \
    --sources crates --toolchain "$(rt version)" "$@" >"$file.new"
mv "$file.new" "$file"
