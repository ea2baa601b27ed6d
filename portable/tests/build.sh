#!/bin/sh
# build.sh: barrier_engine.c by CC (gcc), from the repository's root. OUT is the folder for what is built, ARCHIVE the archive that the toolchain's own back end made.
# Built without a warning, needs three functions of the C library and no others, has no state, gives the archive's answers, usual and plain, and nothing that the
# sanitizers find.
set -eu
: "${CC:=gcc}" "${CXX:=g++}" "${OUT:=target/portable}" "${ARCHIVE:=target/staticlib/libbarrier_engine.a}"
c=portable/barrier_engine.c
mkdir -p "$OUT"
fail() {
    echo "build: $1" >&2
    exit 1
}

# README's one line.
$CC -Iinclude examples/first.c $c -o "$OUT/first"
printf '%s\n' 'done; overhang 0 and 0 mm' '[155773, 210000) at NC-3' >"$OUT/wanted"
"$OUT/first" | diff "$OUT/wanted" - || fail "the first program prints something else"

# No warning, as any standard of C from C99 on; and not as C++, which it says.
warnings="-Wall -Wextra -Wpedantic -Wconversion -Wshadow -Wcast-qual -Wvla -Werror -Iinclude"
sh portable/make.sh "$OUT/plain.c" --plain
$CC -std=c99 -O2 -fPIC $warnings -c $c -o "$OUT/usual.o"
$CC -std=c99 -O2 -fPIC $warnings -c "$OUT/plain.c" -o "$OUT/plain.o"
for standard in c11 c17; do
    $CC -std=$standard $warnings -fsyntax-only $c
done
if $CXX -Iinclude -x c++ -fsyntax-only $c 2>"$OUT/said"; then fail "it compiles as C++, where it says that it is C"; fi
grep -q 'barrier_engine.c is C' "$OUT/said" || fail "as C++ it does not say that it is C"
# What it needs of double, unsigned int and sums of doubles, it tests.
for other in '-ffast-math' '-U__DBL_MANT_DIG__ -D__DBL_MANT_DIG__=24' '-U__INT_MAX__ -D__INT_MAX__=0x7fffffffffffffff'; do
    if $CC -std=c99 -w $other -Iinclude -fsyntax-only $c 2>"$OUT/said"; then fail "it compiles with $other"; fi
    grep -qE 'IEEE 754|must not be wider' "$OUT/said" || fail "with $other it does not say what it needs"
done
# windows.h has these as macros.
$CC -std=c99 $warnings -Dnear= -Dfar= -Dmin=1 -Dmax=1 -Dsmall=char -Dinterface=struct -fsyntax-only $c
echo "build: no warning as C99, C11 and C17, usual and plain; as C++ it says that it is C, and on another double or a wider int what it needs; no name that windows.h has as a macro"

# Exports the calls alone, asks for three functions, has no data that can be written.
nm -g --defined-only "$OUT/usual.o" | awk '{ print $3 }' | sort >"$OUT/exported"
sed -n 's/^[a-z][a-z0-9_]* \(barrier_[a-z_]*\)(.*/\1/p' include/barrier.h | sort | diff - "$OUT/exported" || fail "it exports something else than the header's calls"
# _GLOBAL_OFFSET_TABLE_ is the linker's, for code that is position independent.
if nm -u "$OUT/usual.o" | awk '{ print $2 }' | grep -vxE 'memcpy|memset|memmove|_GLOBAL_OFFSET_TABLE_'; then fail "it asks for the names above"; fi
size -A "$OUT/usual.o" | awk '$1 ~ /^\.(data|bss)/ && $2 > 0 { print; found = 1 } END { exit found }' || fail "it has state"
cat >"$OUT/three.c" <<'END'
#include <stddef.h>
void *memcpy(void *to, const void *from, size_t n) { char *a = to; const char *b = from; while (n--) *a++ = *b++; return to; }
void *memset(void *to, int c, size_t n) { char *a = to; while (n--) *a++ = (char)c; return to; }
void *memmove(void *to, const void *from, size_t n) { char *a = to; const char *b = from; if (a < b) while (n--) *a++ = *b++; else while (n--) a[n] = b[n]; return to; }
END
for unit in $c "$OUT/three.c"; do
    $CC -std=c99 -O2 -ffreestanding -fno-builtin -fno-pic -fno-stack-protector -Iinclude -c $unit -o "$OUT/$(basename $unit .c).bare.o"
done
ld -r "$OUT/barrier_engine.bare.o" "$OUT/three.bare.o" -o "$OUT/bare.o"
if nm -u "$OUT/bare.o" | grep .; then fail "freestanding it asks for the names above"; fi
echo "build: exports the header's calls, asks for memcpy, memset and memmove alone, freestanding too, and has no state"

# One number of fixed jobs through every call: the archive's.
$CC -std=c99 -O2 -Iinclude portable/tests/digest.c "$ARCHIVE" -o "$OUT/digest"
want=$("$OUT/digest" 60)
for form in usual plain; do
    $CC -std=c99 -O2 -Iinclude portable/tests/digest.c "$OUT/$form.o" -o "$OUT/digest"
    [ "$("$OUT/digest" 60)" = "$want" ] || fail "the $form C does not give the archive's answers"
done
$CC -std=c99 -O1 -g -fsanitize=address,undefined -fno-sanitize-recover=all -Iinclude portable/tests/digest.c $c -o "$OUT/digest"
want=$("$OUT/digest" 10) || fail "a sanitizer found something"
$CC -std=c99 -O2 -Iinclude portable/tests/digest.c "$ARCHIVE" -o "$OUT/digest"
[ "$("$OUT/digest" 10)" = "$want" ] || fail "with sanitizers it gives other answers"
echo "build: usual and plain C give the archive's answers; the sanitizers for addresses and undefined behaviour find nothing"
