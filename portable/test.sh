#!/bin/sh
# test.sh: what ties portable/barrier_engine.c to the proofs, and what tests it. make portable-test, from the repository's root; the crates are proved and the archive
# is built before. Needs gcc, g++, cargo and python3. portable/README.md says what each part shows.
set -eu
cd "$(dirname "$0")/.."
kit=$(dirname "$(rt doc)")/rlibs
out=target/portable
mkdir -p "$out/lib"

sh portable/current.sh
echo "portable: barrier_engine.c is what the proved MIR gives, byte for byte; barrier.h's calls and structs are the MIR's by width and order, the sources' by name"
python3 -B portable/tests/header.py crates/*/out/rlib "$kit"
python3 -B portable/tests/tie.py crates/*/out/rlib "$kit"
CC=gcc CXX=g++ OUT=$out sh portable/tests/build.sh
python3 -B portable/tests/refusals.py
python3 -B portable/tests/guards.py
python3 -B portable/tests/random_mir.py 40
gcc -shared "$out/usual.o" -o "$out/usual.so"
python3 -B portable/tests/against_machine.py "$out/usual.so" 5 1 crates/*/out/rlib "$kit"

# The tests of the archive, over an archive that gcc made from the C.
rm -f "$out/lib/libbarrier_engine.a"
ar rcs "$out/lib/libbarrier_engine.a" "$out/usual.o"
BARRIER_LIB_DIR=$PWD/$out/lib cargo --quiet run --release --locked --manifest-path tests/Cargo.toml -p differential -- --rounds "${ROUNDS:-6}"
# Of the vendors' tests those of the calls; what is around them is the same whichever engine is linked.
MAKEFLAGS='' make --no-print-directory -f Makefile.vendor vendor-test LIBDIR="$out/lib" VENDOR_BUILD="$out/examples" BARRIER= VENDOR_PYTHON_TESTS='test_calls.py' \
    VENDOR_SCRIPTS="$(for name in archive corners empty examples first header help layout limits manual names offset overhang rust shared stations turning; do printf 'tests/vendor/%s.sh ' "$name"; done)"
echo "portable: the tests of the archive pass over the C, by gcc -O2"

# And as a vendor builds it, with another compiler named: archive, shared library, installation.
rm -rf "$out/vendor"
prefix=$(mktemp -d)
trap 'rm -rf "$prefix"' EXIT
MAKEFLAGS='' make -s -f Makefile.vendor vendor-c LIBDIR="$out/vendor" CC=gcc AR=ar CFLAGS='-O1 -DNDEBUG'
MAKEFLAGS='' make -s -f Makefile.vendor install LIBDIR="$out/vendor" VENDOR_BUILD="$out/vendor" CC=gcc PREFIX="$prefix" >/dev/null
gcc -Iinclude examples/first.c -L"$prefix/lib" -lbarrier_engine -Wl,-rpath,"$prefix/lib" -o "$out/vendor/first"
"$out/vendor/first" | diff "$out/wanted" - || { echo "portable: the installed shared library prints something else" >&2; exit 1; }
if MAKEFLAGS='' make -s -f Makefile.vendor vendor-c LIBDIR=target/staticlib 2>/dev/null; then echo "portable: vendor-c writes over the proved archive" >&2; exit 1; fi
echo "portable: Makefile.vendor makes archive and shared library from the C, and installs them"
