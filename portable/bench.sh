#!/bin/sh
# bench.sh [CASE..]: instructions of one call (eleven calls less one, by ten, as tests/instructions.sh has it): the archive, and barrier_engine.c by each compiler, as a part of the archive's count.
# make bench-portable, from the repository's root, once the archive is built. Needs valgrind, clang and cargo. The C library is told to fill and copy memory without
# `rep stosb` and `rep movsb`, which callgrind counts byte by byte.
set -eu
cd "$(dirname "$0")/.."
GLIBC_TUNABLES=glibc.cpu.x86_rep_stosb_threshold=0x7fffffff:glibc.cpu.x86_rep_movsb_threshold=0x7fffffff
export GLIBC_TUNABLES
out=$PWD/target/portable/bench
mkdir -p "$out"
[ $# -gt 0 ] || set -- sparse-shuffled dense-shuffled runs511-shuffled level-sparse-shuffled corners-sparse-shuffled layout-4-all quantity-511 quantities-64-all open-add-255 open-schedule-256 open-keep-256-kept
made() { # NAME OBJECT-OR-ARCHIVE: the bench program with it
    mkdir -p "$out/$1"
    case $2 in *.a) cp "$2" "$out/$1/libbarrier_engine.a" ;; *) rm -f "$out/$1/libbarrier_engine.a" && ar rcs "$out/$1/libbarrier_engine.a" "$2" ;; esac
    BARRIER_LIB_DIR=$out/$1 cargo --quiet build --release --locked --manifest-path tests/Cargo.toml -p bench
    cp tests/target/release/bench "$out/bench-$1"
}
counted() { # NAME CASE TIMES
    valgrind --tool=callgrind --callgrind-out-file=/dev/null "$out/bench-$1" --case "$2" --times "$3" --who engine 2>&1 | sed -n 's/.*Collected : \([0-9]*\).*/\1/p'
}
made archive target/staticlib/libbarrier_engine.a
columns="gcc-O2 gcc-O3 clang-O2 clang-O3"
for column in $columns; do
    ${column%-*} -std=c99 -${column#*-} -fPIC -Iinclude -c portable/barrier_engine.c -o "$out/$column.o"
    made "$column" "$out/$column.o"
    size "$out/$column.o" | awk -v name="$column" 'NR == 2 { print name ": " $1 " bytes of code" }'
done
echo "| case | archive | gcc -O2 | gcc -O3 | clang -O2 | clang -O3 |"
echo "|---|---:|---:|---:|---:|---:|"
for case in "$@"; do
    row="| $case" base=
    for column in archive $columns; do
        one=$((($(counted "$column" "$case" 11) - $(counted "$column" "$case" 1)) / 10))
        if [ -z "$base" ]; then base=$one row="$row | $one"; else row="$row | $(awk -v a="$one" -v b="$base" 'BEGIN { printf "%.2f", a / b }')"; fi
    done
    echo "$row |"
done
