#!/bin/sh
# The header compiles alone, as C and as C++, without a warning; in C++ each
# enum's name is a type, which a call of the same name would hide; the greatest
# station is a number there; an open job has the size that it names, and no
# padding; and the refusals' numbers are those of the table. The calls for Rust
# have the same sizes and numbers.
set -eu
# Flags are several words: they stand unquoted.
warnings="-Wall -Wextra -Werror -pedantic -fsyntax-only"
for standard in c99 c11; do
    $CC -std=$standard $warnings -x c include/barrier.h
done
for standard in c++98 c++11 c++17; do
    $CXX -std=$standard $warnings -x c++ include/barrier.h
done
$CXX -std=c++98 $warnings -Iinclude -x c++ - <<'END'
#include <barrier.h>
extern barrier_side side;
extern barrier_containment level;
extern barrier_number number;
extern char one[BARRIER_STATION_MAX / 1000000 == 1000000 && BARRIER_ROAD_MAX == 2000000000 ? 1 : -1];
END
echo "header: alone as C99, C11, C++98, C++11 and C++17"

size=$(sed -n 's/^ \* An open job: \([0-9]*\) bytes, aligned to 8, without padding\..*/\1/p' include/barrier.h)
$CC -std=c99 $warnings -Iinclude -x c - <<END
#include <barrier.h>
struct aligned { char before; barrier_open_job job; };
typedef char as_named[sizeof(barrier_open_job) == $size && offsetof(struct aligned, job) == 8 ? 1 : -1];
END
grep -q "^ \*     barrier_open_job job;  *$size bytes\$" include/barrier.h || {
    echo "header: \"Open jobs\" does not say that an open job has $size bytes" >&2
    exit 1
}
$CC -std=c99 $warnings -Wpadded -x c include/barrier.h
rust_size=$(sed -n 's/.*size_of::<OpenJob>() == \([0-9_]*\).*/\1/p' bindings/rust/src/c.rs | tr -d _)
[ "$rust_size" = "$size" ] || {
    echo "header: in Rust an open job has $rust_size bytes, not $size" >&2
    exit 1
}
schedule=$(sed -n 's/^#define BARRIER_SCHEDULE_MAX \([0-9]*\)$/\1/p' include/barrier.h)
grep -qx "pub const SCHEDULE_MAX: usize = $schedule;" bindings/rust/src/constants.rs || {
    echo "header: in Rust the longest schedule has not $schedule bytes" >&2
    exit 1
}
echo "header: an open job has $size bytes, as named, without padding; this and the longest schedule are the same in Rust"

# NAME NUMBER of each refusal, from the enum, from Rust, and the table's rows.
tmp=$(mktemp -d)
trap 'rm -rf "$tmp"' EXIT
sed -n '/^enum barrier_number {/,/^}/s/^    BARRIER_\([A-Z_]*\) = \([0-9]*\),*$/\1 \2/p' include/barrier.h >"$tmp/header"
sed -n '/The numbers of the refusal table/,/^$/s/^pub const \([A-Z_]*\): u64 = \([0-9]*\);$/\1 \2/p' bindings/rust/src/constants.rs >"$tmp/rust"
diff "$tmp/header" "$tmp/rust"
awk 'BEGIN { print 0 }
    /^ \*     number  value/ { table = 1 }
    /^ \* The first that holds/ { table = 0 }
    table && /^ \*     [ 1][0-9]  / { print $2 }' include/barrier.h >"$tmp/rows"
# 6 has a row, which says that it is not given any more, and no name.
awk '{ print $2; if ($2 == 5) print 6 }' "$tmp/header" | diff "$tmp/rows" -
grep -q '^ \*      6  *no longer given, and not used again;$' include/barrier.h
echo "header: a name for each row of the refusal table but 6, which is no longer given; the same in Rust"
