#!/bin/sh
# Runs the rows of tests/program/rows, and the tests that are written in Python beside them, on ./township or the program
# that is named, and on twp_trials or the program that is named second. Further words go to pytest, such as `-k acres`.
. "$(dirname "$0")/../lib.sh"
name_programs "$@"
# A faulty program must not fill the disk.
ulimit -f 4000
[ $# -lt 2 ] || shift
[ $# = 0 ] || shift

if ! python=$(python_with 'pytest, tomllib'); then
    skip 'the rows of tests/program: no Python 3.11 with pytest'
    ended
fi
cd "$root" || exit 1
pytests "$python" tests/program --program "$program" --calls "$calls" "$@"
ended
