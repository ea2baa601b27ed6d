#!/bin/sh
# Instructions for one call, engine beside reference, on fixed jobs: the difference between eleven calls and one, counted by callgrind.
# The C library clears and copies memory without `rep stosb` and `rep movsb`, which are one instruction each and which callgrind counts once for each byte.
set -eu
cd "$(dirname "$0")"
command -v valgrind >/dev/null || { echo "instructions: valgrind is wanted, and is not on this machine" >&2; exit 1; }
BARRIER_LIB_DIR=${BARRIER_LIB_DIR:-$(cd .. && pwd)/target/staticlib} cargo build --quiet --release --locked -p bench

tmp=$(mktemp -d)
trap 'rm -rf "$tmp"' EXIT

# A run that fails, or counts nothing, ends the script: a blank would look like a figure.
counted() { # CASE TIMES WHO [FUNCTION, for what is inside it alone]
    GLIBC_TUNABLES=glibc.cpu.x86_rep_stosb_threshold=1000000000:glibc.cpu.x86_rep_movsb_threshold=1000000000 valgrind --tool=callgrind --callgrind-out-file=/dev/null ${4:+"--toggle-collect=$4"} \
        target/release/bench --case "$1" --times "$2" --who "$3" >"$tmp/said" 2>&1 || { cat "$tmp/said" >&2; exit 1; }
    count=$(sed -n 's/.*Collected : \([0-9][0-9]*\).*/\1/p' "$tmp/said")
    [ "${count:-0}" -gt 0 ] || { echo "instructions: callgrind gives no count for $1" >&2; exit 1; }
}

one_call() { # CASE WHO [FUNCTION]
    counted "$1" 11 "$2" "${3:-}"
    eleven=$count
    counted "$1" 1 "$2" "${3:-}"
    one_call=$(((eleven - count) / 10))
}

echo "| case | engine | reference |"
echo "|---|---:|---:|"
for case in sparse-shuffled sparse-shuffled-64 sparse-shuffled-8 sparse-shuffled-1 sparse-shuffled-panels-4000 overhang-sparse-shuffled chainage-sparse-shuffled dense-shuffled runs511-shuffled runs511-ordered level-sparse-shuffled level-dense-shuffled corners-sparse-shuffled offset-sparse-shuffled reach-sparse-shuffled layout-4-all quantity-511 quantities-64-all quantities-64-half quantity-64-single-calls lookup-511-middle open-opening open-add-255 open-withdraw-256 open-schedule-256 open-reach-256 open-add-255-kept open-withdraw-256-kept open-keep-256-kept open-return-256-kept open-reach-256-kept open-test-256 open-test-256-kept; do
    one_call "$case" engine
    engine=$one_call
    one_call "$case" reference
    echo "| $case | $engine | $one_call |"
    # A call that changes the memory is given a fresh copy each time, which counts in its row; here it does not.
    case $case in open-add-* | open-withdraw-*)
        changing=${case#open-}
        one_call "$case" engine "barrier_${changing%%-*}"
        echo "| $case, inside the call | $one_call | |"
        ;;
    esac
done
