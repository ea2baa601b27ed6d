#!/bin/sh
# The first program: at most 20 lines of code, shown in part in the README, which
# has at most 9,000 bytes; built and run by the README's own commands where only
# a C and a C++ compiler are needed; and built with an installed engine as the
# manual says, "Platform and linking".
set -eu
tmp=$(mktemp -d)
trap 'rm -rf "$tmp"' EXIT

fail() {
    echo "first: $1" >&2
    exit 1
}

lines=$(sed '/^ *\/\*.*\*\/$/d; /^ *$/d' examples/first.c | wc -l)
[ "$lines" -le 20 ] || fail "it has $lines lines"
[ "$(wc -c <README.md)" -le 9000 ] || fail "README.md has more than 9,000 bytes"

# Between the marks <!-- first.c --> and <!-- /first.c --> of the README is one
# block of code: lines of the program, in its order.
sed -n '/^<!-- first\.c -->$/,/^<!-- \/first\.c -->$/p' README.md >"$tmp/marked"
grep -qx '<!-- /first.c -->' "$tmp/marked" || fail "README.md does not have the marks <!-- first.c --> and <!-- /first.c -->"
sed -n '/^```/,/^```$/p' "$tmp/marked" | sed '/^```/d' >"$tmp/shown"
grep -q barrier_plan "$tmp/shown" || fail "README.md shows no call"
diff examples/first.c "$tmp/shown" | grep -q '^>' && fail "README.md shows lines that examples/first.c does not have in that order"
while IFS= read -r line; do
    grep -qxF -- "    $line" README.md || fail "README.md does not say that it prints '$line'"
done <examples/first.out

# The README's commands, in a folder of their own: C, then C++, each prints the
# same; and the text job of the README, listed.
mkdir "$tmp/tree"
cp -R include examples portable "$tmp/tree"
sed -n 's/^    \(cc .* && \.\/first\)$/\1/p' README.md >"$tmp/commands"
[ "$(wc -l <"$tmp/commands")" -eq 2 ] || fail "README.md does not have two commands that build and run it"
while IFS= read -r command; do
    rm -f "$tmp/tree/first"
    (cd "$tmp/tree" && sh -euc "$command") >"$tmp/printed" || fail "status $? of $command"
    diff examples/first.out "$tmp/printed" || fail "something else is printed by $command"
done <"$tmp/commands"
sed -n '/^    road /,/^    hazard /{s/^    //;p;}' README.md >"$tmp/tree/my.job"
sed -n 's/^    \(cc .* -o listing\)$/\1/p; s/^    \(\.\/listing .*\)$/\1/p' README.md >"$tmp/commands"
[ "$(wc -l <"$tmp/commands")" -eq 2 ] || fail "README.md does not list its job"
(cd "$tmp/tree" && sh -eu "$tmp/commands") >"$tmp/printed" || fail "status $? of the listing"
grep -q '155.773' "$tmp/printed" || fail "the job of README.md is listed as something else"

# With an installed engine: the archive, without pkg-config, the shared library.
MAKEFLAGS='' make -s -f Makefile.vendor install LIBDIR="$LIBDIR" CC="$CC" PREFIX="$tmp/prefix" >"$tmp/said"
PKG_CONFIG_PATH=$tmp/prefix/lib/pkgconfig
export PKG_CONFIG_PATH
for flags in "$(pkg-config --cflags --libs barrier_engine)" \
    "-I$tmp/prefix/include $tmp/prefix/lib/libbarrier_engine.a" \
    "$(pkg-config --cflags --libs barrier_engine_shared) -Wl,-rpath,$tmp/prefix/lib"; do
    rm -f "$tmp/first"
    # The flags are several words.
    $CC -std=c99 -Wall -Wextra -Werror -pedantic examples/first.c $flags -o "$tmp/first" || fail "not built with $flags"
    "$tmp/first" >"$tmp/printed" || fail "status $? with $flags"
    diff examples/first.out "$tmp/printed" || fail "something else is printed with $flags"
done
echo "first: $lines lines of code, built and run by the commands of README.md in C and C++, and with the installed engine"
