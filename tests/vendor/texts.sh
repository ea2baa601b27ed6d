#!/bin/sh
# What is said of a text that is no job, word for word, by each program in C that
# reads one; the package for Python is held to the same texts by its own tests.
set -eu
exec python3 tests/vendor/texts.py "$BUILD"
