#!/bin/sh
# Panels for one run, by hand and against a plain search.
set -eu
tmp=$(mktemp -d)
trap 'rm -rf "$tmp"' EXIT
$CC -std=c99 -O2 -Wall -Wextra -Werror -pedantic -Iinclude tests/vendor/layout.c -L"$LIBDIR" -lbarrier_engine -o "$tmp/layout"
"$tmp/layout"
echo "layout: overruns, layouts, tries and floors as stated and as a plain search finds them, refusals in their order"
