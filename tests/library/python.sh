#!/bin/sh
# Runs the tests of the Python package against lib/libtownship.so, or the library that TOWNSHIP_LIBRARY names,
# without installing anything. TOWNSHIP_CASES can name a zip of worked cases, and PYTHON another Python. The last
# line is 'N passed, M skipped', with the names of those that were skipped.
set -eu
root=$(readlink -f "$(dirname "$0")/../..")
library=${TOWNSHIP_LIBRARY:-$root/lib/libtownship.so}
if [ ! -f "$library" ]; then
    echo "there is no $library; 'make lib' builds the library" >&2
    exit 1
fi
TOWNSHIP_LIBRARY=$(readlink -f "$library")
if [ -n "${TOWNSHIP_CASES:-}" ]; then
    if [ ! -f "$TOWNSHIP_CASES" ]; then
        echo "TOWNSHIP_CASES names no file: $TOWNSHIP_CASES" >&2
        exit 1
    fi
    TOWNSHIP_CASES=$(readlink -f "$TOWNSHIP_CASES")
    export TOWNSHIP_CASES
fi
export TOWNSHIP_LIBRARY
export PYTHONPATH="$root/bindings/python/src"
# Leave nothing in the sources.
export PYTHONDONTWRITEBYTECODE=1
cd "$root"
exec "${PYTHON:-python3}" bindings/python/tests/run.py
