#!/bin/sh
# The helper header: without a warning as C and as C++, with no name that is not
# its own and no header beside the two that sizes and numbers need; what its
# functions do, under the compiler's sanitisers where it has them.
set -eu
tmp=$(mktemp -d)
trap 'rm -rf "$tmp"' EXIT

fail() {
    echo "help: $1" >&2
    exit 1
}

# Included, as programs have it: each file of a program may include it.
warnings="-Wall -Wextra -Werror -pedantic -Wconversion -Wshadow -Iinclude"
printf '%s\n' '#include <barrier_help.h>' '#include <barrier_help.h>' >"$tmp/alone.c"
for standard in c99 c11; do
    $CC -std=$standard $warnings -fsyntax-only "$tmp/alone.c"
done
for standard in c++11 c++17; do
    $CXX -std=$standard $warnings -fsyntax-only -x c++ "$tmp/alone.c"
done
also=''
if command -v clang >"$tmp/found"; then
    clang -std=c99 $warnings -fsyntax-only "$tmp/alone.c"
    clang -std=c++17 $warnings -fsyntax-only -x c++ "$tmp/alone.c"
    also=', with clang too'
fi

# Everything that it declares at the left margin, every macro that it adds to
# barrier.h, and every file that it reads.
grep -E '^(static|typedef [^s]|enum|extern|struct|union|\} )' include/barrier_help.h >"$tmp/declared"
[ "$(grep -c '^static inline [^(]*barrier_help_[a-z_]*(' "$tmp/declared")" -gt 30 ] || fail "its functions are not there"
if grep -vE '^(static inline [^(]*[ *]|enum |\} )barrier_help_[a-z_]*( \{$|;$|\()' "$tmp/declared"; then fail "it declares the names above"; fi
echo '#include <barrier.h>' | $CC -std=c99 -Iinclude -dM -E -x c - | sort >"$tmp/before"
$CC -std=c99 -Iinclude -dM -E "$tmp/alone.c" | sort >"$tmp/after"
comm -13 "$tmp/before" "$tmp/after" >"$tmp/macros"
grep -q BARRIER_HELP_TEXT_MAX "$tmp/macros" || fail "its macros are not there"
if grep -v '^#define BARRIER_HELP_' "$tmp/macros"; then fail "it has the macros above"; fi
echo '#include <barrier.h>' | $CC -std=c99 -Iinclude -M -x c - | tr -s ' \\' '\n\n' | grep '\.h$' | sort -u >"$tmp/before"
$CC -std=c99 -Iinclude -M "$tmp/alone.c" | tr -s ' \\' '\n\n' | grep '\.h$' | sort -u >"$tmp/after"
[ "$(comm -13 "$tmp/before" "$tmp/after")" = include/barrier_help.h ] || fail "it reads more than barrier.h: $(comm -13 "$tmp/before" "$tmp/after")"
echo "help: C99, C11, C++11 and C++17 without a warning$also; its names alone, no other header, nothing to link"

# Every function that is not private stands in the list at the top, and is there.
sed -n 's/^static inline .*[ *]\(barrier_help_[a-z_]*\)(.*/\1/p' include/barrier_help.h | grep -v '^barrier_help_p_' | sort >"$tmp/functions"
sed -n '1,/^ \* All of it is in this file/s/^ \*     \(barrier_help_[a-z_]*\) .*/\1/p; 1,/^ \* All of it is in this file/s/^ \*     \(barrier_help_[a-z_]*\)$/\1/p' include/barrier_help.h | sort >"$tmp/listed"
diff "$tmp/functions" "$tmp/listed" || fail "the list at its top has not its functions"

# A header whose third number is later fits the engine of before: no call is
# another there.
mkdir "$tmp/later"
cp include/barrier_help.h "$tmp/later"
sed 's/^\(#define BARRIER_VERSION_PATCH\) .*/\1 99/' include/barrier.h >"$tmp/later/barrier.h"
printf '%s\n' '#include <barrier_help.h>' \
    'int main(void) { return barrier_help_version_fits(BARRIER_VERSION_MAJOR * 1000000u + BARRIER_VERSION_MINOR * 1000u) ? 0 : 1; }' >"$tmp/later/fits.c"
$CC -std=c99 -I"$tmp/later" "$tmp/later/fits.c" -o "$tmp/later/fits"
"$tmp/later/fits" || fail "a later third number of the header does not fit"
echo "help: its list has its functions; a third number alters nothing"

# A sanitiser finds a step beyond the memory that was given.
flags="-std=c99 -O1 -g -Wall -Wextra -Werror -pedantic -Iinclude tests/vendor/help.c -L$LIBDIR -lbarrier_engine -o $tmp/help"
if $CC -fsanitize=address,undefined,float-cast-overflow -fno-sanitize-recover=all $flags 2>"$tmp/said"; then
    how="under the sanitisers"
else
    $CC $flags
    how="NOT under sanitisers: the compiler has none"
fi
"$tmp/help" || fail "status $?"
echo "help: jobs, schedules, refusals, ranges, metres and version as stated, $how"
