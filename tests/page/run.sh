#!/bin/sh
# Tests the page and its JSON interface, which `python3 -m township serve` serves, with lib/libtownship.so or the library
# that TOWNSHIP_LIBRARY names: by requests, and in a browser. Further words go to pytest, such as `-k compare`. The last
# line is 'N passed, M failed'.
. "$(dirname "$0")/../lib.sh"
cd "$root" || exit 1
library=${TOWNSHIP_LIBRARY:-$root/lib/libtownship.so}
if [ ! -f "$library" ]; then
    echo "there is no $library; 'make lib' builds the library" >&2
    exit 1
fi
TOWNSHIP_LIBRARY=$(readlink -f "$library")
PYTHONPATH=$root/bindings/python/src
export TOWNSHIP_LIBRARY PYTHONPATH
if ! python=$(python_with 'flask, waitress, pytest, selenium, PIL' || python_with 'flask, waitress, pytest'); then
    skip 'the page: no Python with flask, waitress, and pytest'
    ended
fi
pytests "$python" tests/page "$@"
ended
