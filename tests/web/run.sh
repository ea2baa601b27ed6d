#!/bin/sh
# The page in real browsers: make web-test, from the repository's root. Debian packages, beside gcc and python3:
#     clang lld chromium chromium-driver python3-selenium firefox-esr
# The page is judged by the library's replies: portable/barrier_engine.c, compiled by CC for this machine, through bindings/python. firefox-esr may be left
# out, and then it is said. Not part of make test, which needs no browser; tests/vendor/web.sh is.
set -eu
cd "$(dirname "$0")/../.."
: "${CC:=cc}" "${SYSTEM_PYTHON:=/usr/bin/python3}"
missing=
for tool in clang wasm-ld "${CHROMIUM:-chromium}" "${CHROMEDRIVER:-chromedriver}"; do command -v "$tool" >/dev/null || missing="$missing $tool"; done
"$SYSTEM_PYTHON" -c 'import selenium' 2>/dev/null || missing="$missing python3-selenium"
if [ -n "$missing" ]; then
    echo "web-test: not on this machine:$missing (Debian: clang lld chromium chromium-driver python3-selenium)" >&2
    exit 1
fi
[ -f target/web/barrier.html ] || { echo "web-test: make web first" >&2; exit 1; }
# Browsers leave folders behind: they go with this one.
TMPDIR=$(mktemp -d)
export TMPDIR
trap 'rm -rf "$TMPDIR"' EXIT
$CC -std=c99 -O2 -shared -fPIC -Iinclude portable/barrier_engine.c -o target/web/libbarrier_engine.so
export BARRIER_LIBRARY="$PWD/target/web/libbarrier_engine.so" PYTHONDONTWRITEBYTECODE=1
"$SYSTEM_PYTHON" -B tests/web/test_page.py "$@"
"$SYSTEM_PYTHON" -B tests/web/firefox.py
"$SYSTEM_PYTHON" -B tests/web/wrong.py
"$SYSTEM_PYTHON" -B tests/web/screenshots.py target/web/shots
echo "web-test: done; pictures in target/web/shots"
