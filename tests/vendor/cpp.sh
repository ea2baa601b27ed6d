#!/bin/sh
# The first program in C++17: built by the command in its comment; by g++, and by
# clang++ where it is there, without a warning of its own lines, with the archive
# and with the C compiled as C. It prints what the program in C prints, and ends
# with 1 where the plan is refused.
set -eu
tmp=$(mktemp -d)
trap 'rm -rf "$tmp"' EXIT

fail() {
    echo "cpp: $1" >&2
    exit 1
}
prints_as_stored() { # PROGRAM
    "$1" >"$tmp/printed" || fail "$1 ends with $?"
    diff examples/first.out "$tmp/printed" || fail "$1 prints something else than examples/first.out"
}

# Elsewhere, with what the comment names and nothing beside it.
mkdir -p "$tmp/alone/portable" "$tmp/alone/examples"
cp -r include "$tmp/alone"
cp portable/barrier_engine.c "$tmp/alone/portable"
cp examples/first.cpp "$tmp/alone/examples"
sed -n 's|^//     \(cc .*\)|\1|p' examples/first.cpp >"$tmp/command"
[ "$(wc -l <"$tmp/command")" -eq 1 ] || fail "the comment has not one command"
(cd "$tmp/alone" && sh -eu "$tmp/command") >"$tmp/printed" || fail "the command of its comment ends with $?"
diff examples/first.out "$tmp/printed" || fail "the command of its comment prints something else than examples/first.out"

prints_as_stored "$BUILD/first_cpp"

# Flags are several words: they stand unquoted.
warnings="-Wall -Wextra -Wpedantic -Wconversion -Wshadow -Wold-style-cast -Werror"
$CC -std=c99 -O2 -Iinclude -c portable/barrier_engine.c -o "$tmp/engine.o"
$CC -std=c99 -Iinclude -DREFUSED=plan -c tests/vendor/refusing.c -o "$tmp/refusing.o"
compilers=$CXX
for other in g++ clang++; do
    if [ "$other" = "$CXX" ]; then
        continue
    elif command -v "$other" >"$tmp/found"; then
        compilers="$compilers $other"
    else
        echo "cpp: NOT with $other: it is not on this machine"
    fi
done
for compiler in $compilers; do
    for standard in c++17 c++20; do
        # The headers are the system's here: only the program's own lines are judged.
        $compiler -std=$standard -O2 $warnings -isystem include -c examples/first.cpp -o "$tmp/first.o"
        $compiler "$tmp/first.o" "$tmp/engine.o" -o "$tmp/first"
        prints_as_stored "$tmp/first"
        $compiler "$tmp/first.o" "$LIBDIR/libbarrier_engine.a" -o "$tmp/first"
        prints_as_stored "$tmp/first"
    done
    # As first.c: the headers give no warning of the usual ones either.
    $compiler -std=c++17 -Wall -Wextra -Werror -pedantic -Iinclude -fsyntax-only examples/first.cpp
    $compiler "$tmp/first.o" "$tmp/refusing.o" -o "$tmp/refused"
    status=0
    "$tmp/refused" >"$tmp/printed" || status=$?
    [ "$status" -eq 1 ] || fail "a refused plan: status $status"
    [ "$(cat "$tmp/printed")" = "the job ends before or inside the number at byte 34; overhang 0 and 0 mm" ] || fail "a refused plan: $(cat "$tmp/printed")"
done
echo "cpp: first.cpp builds by its own command and by $compilers, and prints examples/first.out"
