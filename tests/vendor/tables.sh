#!/bin/sh
# Listing's tables for a spreadsheet, hazards' names, and roads that are driven on
# the left or towards falling stations, through listing and corners.
set -eu
exec python3 tests/vendor/tables.py "$BUILD"
