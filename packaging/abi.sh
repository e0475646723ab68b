#!/bin/sh
# Compares the functions and types of include/township.h with those of the last release, which packaging/libtownship.abi
# records: the status is not 0 if a program that was compiled with that release could no longer work. Until the first
# release, the record says that it is unreleased, and has to be complete. With --update, records them anew: after each
# change until the first release, and then only before a release (packaging/release.sh).
#
# The library itself has no debugging information, which is where the tools read types from. So they are given another
# library, compiled from the header, that has the same functions with empty bodies.
set -eu
cd "$(dirname "$0")/.."
recorded=packaging/libtownship.abi
work=$(mktemp -d)
trap 'rm -rf "$work"' EXIT
{
    echo '#include "township.h"'
    cc -E -P include/township.h | tr '\n' ' ' | tr ';' '\n' |
        sed -n 's/^ *\(township_answer township_[a-z_]*(.*)\) *$/\1 { township_answer answer = {0}; return answer; }/p'
} > "$work/township.c"
cp include/township.h "$work"
major=$(sh packaging/version.sh | sed 's/\..*//')
(cd "$work" && cc -g -w -shared -fPIC -Wl,-soname,"libtownship.so.$major" \
    -Wl,--version-script="$OLDPWD/packaging/libtownship.map" -o libtownship.so township.c)
if [ "${1:-}" = --update ]; then
    abidw --no-corpus-path --no-comp-dir-path --no-show-locs --out-file "$recorded" "$work/libtownship.so"
    if [ "$(grep -c '^## ' CHANGELOG.md)" = 1 ] && grep -q '^## .*(unreleased)$' CHANGELOG.md; then
        sed -i '1a <!-- unreleased: until the first release, functions and types may still change. -->' "$recorded"
    fi
    exit
fi

# The header declares what the library exports.
declared=$(nm -D --defined-only "$work/libtownship.so" | sed -n 's/.* T \([a-z_]*\)@.*/\1/p' | sort)
named=$(sed -n 's/^ *\(township_[a-z_]*\);$/\1/p' packaging/libtownship.map | sort)
if [ "$declared" != "$named" ]; then
    echo "packaging/libtownship.map doesn't name the functions of include/township.h" >&2
    exit 1
fi
if grep -qw unreleased "$recorded"; then
    abidiff --no-show-locs "$recorded" "$work/libtownship.so" || {
        echo "record the functions and types: sh packaging/abi.sh --update" >&2
        exit 1
    }
    exit
fi
# Functions that were added are listed, and break nothing.
abidiff --no-added-syms --no-show-locs "$recorded" "$work/libtownship.so"
abidiff --no-show-locs "$recorded" "$work/libtownship.so" || true
