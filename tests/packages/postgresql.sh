# The package of the extension for the PostgreSQL of this Debian: upgraded from the version before while a server uses it,
# and then the extension in a database with data; the statements of docs/POSTGRESQL.md are run in another database, an
# earlier version of the extension is updated in a third, and the package is removed.
postgres=$(ls -d /usr/lib/postgresql/*)
package=postgresql-${postgres##*/}-township
as_server() { (cd "$work/server" && runuser -u postgres -- "$@"); }
sql() { psql -X -q -A -t "$@" 2>&1; }
# What a database keeps, and which leases are in the way of another.
kept() {
    sql -d offices -c 'SET search_path = public, township' \
        -c 'SELECT id, plat, lots, land FROM leases ORDER BY id' \
        -c "SELECT id FROM leases WHERE land && 'T. 2 N., R. 3 W., sec. 14, N1/2.' ORDER BY id" \
        -c "INSERT INTO leases (id, land) VALUES (4, 'T. 2 N., R. 3 W., sec. 15.') ON CONFLICT DO NOTHING RETURNING id"
}
version_in() { sql -d "$1" -c "SELECT extversion FROM pg_extension WHERE extname = 'township'"; }

# A server, and a database with values of each type, an index, and a constraint.
an_office() {
    export PGHOST="$work/server" PGUSER=postgres PGDATABASE=postgres PGOPTIONS=
    mkdir "$work/server"
    chmod 711 "$work"
    chown postgres "$work/server"
    try 'a database server' as_server "$postgres/bin/initdb" -D "$work/server/data" -A trust -U postgres -E UTF8 \
        --no-locale -N
    try 'it starts' as_server "$postgres/bin/pg_ctl" -D "$work/server/data" -l "$work/server/log" -w -t 60 \
        -o "-c listen_addresses='' -c unix_socket_directories='$work/server'" start
    try 'a database' createdb -T template0 offices
    [ -e "$postgres/lib/township.so" ] || return 0
    sql -d offices -v notes="$(cat "$samples/b1.csv")" > "$work/found" << 'SQL'
CREATE SCHEMA township;
CREATE EXTENSION township SCHEMA township;
SET search_path = public, township;
CREATE TABLE leases (id int PRIMARY KEY, plat plat, lots lots, land land, EXCLUDE USING gist (land WITH &&));
INSERT INTO leases VALUES
    (1, :'notes', E'section,lot,acres\nT,2,N,3,W\n6,7,0.01\n31,4,999.99\n', 'T. 2 N., R. 3 W., sec. 14.'),
    (2, NULL, NULL, 'T. 2 N., R. 3 W., sec. 5, lots 1 and 2.'), (3, NULL, NULL, 'T. 2 N., R. 3 W., sec. 15.');
SQL
    : > "$work/wanted"
    same 'the database is filled'
    kept > "$work/kept"
}

files > "$work/before"
upgrades an_office "$package" township-doc
try 'its copyright' test -f "/usr/share/doc/$package/copyright"
try 'the extension names its build' grep -a -o "\"version\":\"$(dpkg-query -W -f '${Version}' "$package")\"" \
    "$postgres/lib/township.so"
sed -n "s/^default_version = '\(.*\)'/\1/p" "$root/postgresql/township.control" > "$work/newest"
if [ -e "$work/kept" ]; then
    try 'the database has land of the version before' grep -qx 1 "$work/kept"
    kept > "$work/kept.now"
    try 'the newer package reads it' cmp "$work/kept" "$work/kept.now"
    try 'the extension is updated' psql -X -q -v ON_ERROR_STOP=1 -d offices -c 'ALTER EXTENSION township UPDATE'
    kept > "$work/kept.now"
    try 'the updated extension reads it' cmp "$work/kept" "$work/kept.now"
    version_in offices > "$work/found"
    try 'the extension is the newest' cmp "$work/newest" "$work/found"
fi

try 'a database for the documents' createdb -T template0 documents
pages=/usr/share/doc/township
sed -n '/^```sql$/,/^```$/{ /^```/d; p; }' $pages/docs/POSTGRESQL.md > "$work/shown"
grep -v '^--' "$work/shown" > "$work/statements"
sed -n 's/^-- //p' "$work/shown" > "$work/wanted"
(cd $pages && sql -d documents < "$work/statements") > "$work/found"
same 'docs/POSTGRESQL.md'
try 'a database of the first version' createdb -T template0 first
sql -d first -c "CREATE EXTENSION township VERSION '1.0.0'" -c 'ALTER EXTENSION township UPDATE'
version_in first > "$work/found"
try 'the update of the first version' cmp "$work/newest" "$work/found"
try 'its test for autopkgtest' env AUTOPKGTEST_TMP="$work" sh /given/source/packaging/debian/tests/extension

try 'the server stops' as_server "$postgres/bin/pg_ctl" -D "$work/server/data" -m fast -w stop
removes_all 'the extension'
