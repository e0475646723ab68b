#!/bin/sh
# Makes sure that the program and the library are built, for `make install`. The words are the program's file and the
# library's folder. Missing files are built if the Rattle kit is here; otherwise the status is 1, and standard error
# says what to run first. Existing files are not proved or built again, even if a source is newer: that is only noted.
set -eu
cd "$(dirname "$0")/.."
program=$1
library=$2
missing=
[ -f "$program" ] || missing=' township'
[ -f "$library/libtownship.a" ] || missing="$missing lib"
if [ -n "$missing" ]; then
    if ! command -v "${RT:-rt}" > /dev/null; then
        echo "make install installs what was built, and this is not: run \`make$missing\` first, on a machine with the" \
            "Rattle kit" >&2
        exit 1
    fi
    # shellcheck disable=SC2086  # one word for each target
    make --no-print-directory $missing
    exit
fi
for built in "$program" "$library/libtownship.a"; do
    newer=$(find crates include -name out -prune -o -type f -newer "$built" -print | head -n 1)
    [ -z "$newer" ] ||
        echo "note: $newer is newer than $built; \`make township lib\` proves and builds it again" >&2
done
