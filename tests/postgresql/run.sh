#!/bin/sh
# Compiles the extension for PostgreSQL over the library in lib/, or in the folder that is named first (with
# its header in the one that is named second), starts a server of its own, and tests the extension there: its
# regression tests, worked cases, readings, the statements of docs/POSTGRESQL.md, encodings, parallel queries,
# cancellation, a killed process, hostile binary input, races, and dumps. The worked cases are those of
# tests/program/rows, or of the zip file that TOWNSHIP_CASES names. A test whose tool is missing is skipped,
# and named in a line 'skipped: NAME'. The last line is 'N passed, M failed'.
. "$(dirname "$0")/../lib.sh"
. "$root/tests/postgresql/server.sh"
tests=$root/tests/postgresql
library=$(readlink -f "${1:-$root/lib}")
headers=$(readlink -f "${2:-$root/include}")

if ! [ -x "$postgres/bin/initdb" ] || ! [ -f /usr/include/postgresql/15/server/postgres.h ]; then
    skip 'PostgreSQL: no postgresql-15, or no postgresql-server-dev-15'
    ended
fi
if ! has "${CC:-cc}" || ! has make; then
    skip 'PostgreSQL: no C compiler, or no make'
    ended
fi
trap 'stop_server; rm -rf "$work"' EXIT
trap 'exit 1' HUP INT TERM
cd "$work" || exit 1

# A command whose output must be this text.
shows() {
    what=$1
    printf '%s' "${2:+$2
}" > "$work/wanted"
    shift 2
    "$@" > "$work/found" 2>&1
    same "$what"
}

# A new database with the extension, with further options.
new_database() {
    try "the database $1" createdb -T template0 "$@"
    sql -d "$1" -c 'CREATE EXTENSION township'
}

# The extension compiles without warnings. None of its names can be taken for another module's.
compile_extension "$library" "$headers" > "$work/found" 2>&1
: > "$work/wanted"
same 'the extension compiles'
try 'the extension is installed' install_server "$library" "$headers"
nm -D --defined-only "$extension/township.so" | sed 's/.* //' | grep -v '^\(pg_finfo_\)\?twpg_' > "$work/found"
echo Pg_magic_func > "$work/wanted"
same 'the names that the module exports'
# How lands and lot tables are packed for storage, with a sanitizer that sees each byte beyond them, if the compiler has
# one.
headers_of_server=$("$postgres/bin/pg_config" --includedir-server)
for packing in packing lots_packing; do
    for sanitizer in '-fsanitize=address,undefined -fno-sanitize-recover=all' ''; do
        "${CC:-cc}" -std=c11 -D_GNU_SOURCE -O1 -g $sanitizer -I"$headers" -isystem "$headers_of_server" \
            -o "$work/$packing" "$tests/${packing}_test.c" "$root/postgresql/src/$packing.c" > "$work/lost" 2>&1 && break
    done
done
try 'how lands are packed' "$work/packing"
try 'how lot tables are packed' "$work/lots_packing"

if ! start_server; then
    fail 'the server starts' "$work/initdb" "$work/started"
    ended
fi

# The regression tests, in the usual form.
if (cd "$extension" && make -s installcheck PG_CONFIG="$postgres/bin/pg_config" LIBRARY="$library" INCLUDE="$headers") > "$work/out" 2>&1; then
    passed=$((passed + $(grep -c '[.][.][.] ok' "$work/out")))
else
    [ ! -f "$extension/regression.diffs" ] || cat "$extension/regression.diffs" >> "$work/out"
    fail 'the regression tests' "$work/out"
fi

for part in extension upgrade cases readings documents encodings queries received races dumps processes memory memcheck; do
    . "$tests/$part.sh"
done
ended
