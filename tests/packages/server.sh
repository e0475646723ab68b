# The extension for PostgreSQL, compiled for the server of this Debian: its regression tests, the statements of
# docs/POSTGRESQL.md, and its upgrade from its first version.
postgres=$(ls -d /usr/lib/postgresql/*)
extension=$work/postgresql
as_server() { (cd "$work/server" && runuser -u postgres -- "$@"); }
sql() { psql -X -q -A -t "$@" 2>&1; }

cp -R "$root/postgresql" "$root/samples" "$work"
building="-s -C $extension PG_CONFIG=$postgres/bin/pg_config LIBRARY=$root/lib INCLUDE=$root/include"
make $building > "$work/found" 2>&1
: > "$work/wanted"
same "the extension compiles without warnings for ${postgres##*/}"
try 'the extension is installed' make $building install

export PGHOST="$work/server" PGUSER=postgres PGDATABASE=postgres PGOPTIONS=
mkdir "$work/server"
chmod 711 "$work"
chown postgres "$work/server"
try 'a database server' as_server "$postgres/bin/initdb" -D "$work/server/data" -A trust -U postgres -E UTF8 --no-locale -N
try 'it starts' as_server "$postgres/bin/pg_ctl" -D "$work/server/data" -l "$work/server/log" -w -t 60 \
    -o "-c listen_addresses='' -c unix_socket_directories='$work/server'" start
# Its client may word what it shows otherwise than that of the expected files, which is the one of PostgreSQL 15.
if make $building installcheck > "$work/out" 2>&1; then
    passed=$((passed + $(grep -c '^ok\|[.][.][.] ok' "$work/out")))
else
    [ ! -f "$extension/regression.diffs" ] || cat "$extension/regression.diffs" >> "$work/out"
    fail 'the regression tests' "$work/out"
fi
try 'a database' createdb -T template0 documents
sed -n '/^```sql$/,/^```$/{ /^```/d; p; }' "$root/docs/POSTGRESQL.md" > "$work/shown"
grep -v '^--' "$work/shown" > "$work/statements"
sed -n 's/^-- //p' "$work/shown" > "$work/wanted"
(cd "$root" && sql -d documents < "$work/statements") > "$work/found"
same 'docs/POSTGRESQL.md'
try 'a database of the first version' createdb -T template0 first
sql -d first -c "CREATE EXTENSION township VERSION '1.0.0'" -c 'ALTER EXTENSION township UPDATE' \
    -c "SELECT extversion FROM pg_extension WHERE extname = 'township'" > "$work/found"
sed -n "s/^default_version = '\(.*\)'/\1/p" "$root/postgresql/township.control" > "$work/wanted"
same 'the update of the first version'
try 'the server stops' as_server "$postgres/bin/pg_ctl" -D "$work/server/data" -m fast -w stop
