#!/bin/sh
# Hostile input to jobtext, listing and corners, built with the compiler's
# sanitisers where it has them.
set -eu
tmp=$(mktemp -d)
trap 'rm -rf "$tmp"' EXIT
how="under the sanitisers"
for tool in jobtext listing corners; do
    flags="-std=c99 -O1 -g -Wall -Wextra -Werror -pedantic -Iinclude examples/$tool.c -L$LIBDIR -lbarrier_engine -o $tmp/$tool"
    # Flags are several words: they stand unquoted.
    if ! $CC -fsanitize=address,undefined -fno-sanitize-recover=all $flags 2>"$tmp/said"; then
        $CC $flags
        how="NOT under sanitisers: the compiler has none"
    fi
done
python3 tests/vendor/hostile.py "$tmp"
echo "hostile: $how"
