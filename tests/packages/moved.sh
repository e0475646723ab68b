# A server of Debian 12 is moved to that of Debian 13: PostgreSQL 15, with the package of the extension and data in it,
# to PostgreSQL 17, by pg_upgrade. Debian leaves the older server and its packages installed, as in this image.
old=/usr/lib/postgresql/15/bin
new=/usr/lib/postgresql/17/bin
extension=$work/postgresql
as_server() { (cd "$work/server" && runuser -u postgres -- "$@"); }
sql() { psql -X -q -A -t "$@" 2>&1; }
start() {
    try "the server ${2##*/} starts" as_server "$1/pg_ctl" -D "$2" -l "$work/server/log" -w -t 60 \
        -o "-c listen_addresses='' -c unix_socket_directories='$work/server'" start
}
stop() { try "the server ${2##*/} stops" as_server "$1/pg_ctl" -D "$2" -m fast -w stop; }
upgrade() {
    as_server "$new/pg_upgrade" "$@" -b "$old" -B "$new" -d "$work/server/15" -D "$work/server/17" -U postgres \
        -s "$work/server"
}

# The rows of all tables and views of a database, in the order of their texts, and how many there are in each.
contents() {
    for name in $(sql -d "$1" -c "SELECT relname FROM pg_class
        WHERE relnamespace = 'public'::regnamespace AND relkind IN ('r', 'v') ORDER BY 1"); do
        echo "$name $(sql -d "$1" -c "SELECT count(*) FROM $name")"
        sql -d "$1" -c 'SET search_path = public, township' \
            -c "SELECT t::text FROM $name AS t ORDER BY t::text COLLATE \"C\""
    done
}
overlaps='SELECT count(*), sum(a.id::int8 * b.id) FROM lands a JOIN lands b ON a.land && b.land'

export PGHOST="$work/server" PGUSER=postgres PGDATABASE=postgres PGOPTIONS=
mkdir "$work/server"
chmod 711 "$work"
chown postgres "$work/server"
installs 'the extension of Debian 12' /given/dist/postgresql-15-township_*_amd64.deb /given/dist/township-doc_*_all.deb
for server in "$old" "$new"; do
    version=${server#/usr/lib/postgresql/}
    try "a cluster of $version" as_server "$server/initdb" -D "$work/server/${version%/bin}" -A trust -U postgres \
        -E UTF8 --no-locale -N
done

# The tables of docs/POSTGRESQL.md, and a database of the first version, with each type, index, and constraint. Other
# objects come first, so that the numbers of the types are others than in the new server.
start "$old" "$work/server/15"
sql -c 'CREATE TABLE some (id serial)' -c "CREATE TYPE shape AS ENUM ('square')" > "$work/lost"
try 'a database' createdb -T template0 documents
sed -n '/^```sql$/,/^```$/{ /^```/d; /^--/d; p; }' "$root/docs/POSTGRESQL.md" > "$work/statements"
(cd "$root" && sql -d documents < "$work/statements") > "$work/lost"
try 'a database of the first version' createdb -T template0 first
sql -d first -c "CREATE EXTENSION township VERSION '1.0.0'" -v notes="$(cat "$samples/b1.csv")" \
    -f "$root/tests/postgresql/made_up.sql" -f "$root/tests/postgresql/dumps.sql" > "$work/lost"
for database in documents first; do contents $database > "$work/$database"; done
# What there is to compare: 510 lands, and the leases of the page with their acres.
sed -n '/^[a-z_]* [0-9][0-9]*$/p' "$work/documents" "$work/first" > "$work/found"
cat > "$work/wanted" << 'END'
applications 4
conflicts 5
deeds 4
descriptions 3
filed 4
filed_list 1
labels 2
lake 1
lake_leases 5
latest_plats 1
lease_acres 5
leases 5
lot_tables 2
meridians 2
parcels 3
permit_areas 6
permit_lands 6
permits 4
plats 1
returned 1
tracts 2
lands 510
leases 2
lot_tables 3
plats 1
END
same 'the rows of the older server'
sql -d first -c "$overlaps" > "$work/overlaps"
stop "$old" "$work/server/15"

# pg_upgrade asks for the extension of the newer server first.
if upgrade --check > "$work/out" 2>&1; then fail 'pg_upgrade needs the extension' "$work/out"; else pass; fi
try 'it names the extension' grep -rq 'could not load library "$libdir/township"' "$work/server/17/pg_upgrade_output.d"
cp -R "$root/postgresql" "$work"
building="-s -C $extension PG_CONFIG=$new/pg_config LIBRARY=$root/lib INCLUDE=$root/include"
try 'the extension of Debian 13' make $building install
try 'pg_upgrade' upgrade
start "$new" "$work/server/17"
sql -c 'SHOW server_version_num' | cut -c 1-2 > "$work/found"
echo 17 > "$work/wanted"
same 'the version of the new server'
for database in documents first; do
    contents $database > "$work/after"
    try "no value of $database has changed" cmp "$work/$database" "$work/after"
done

# Indexes and constraints work, also after the update.
sql -d first -c 'SET enable_seqscan = off' -c "$overlaps" > "$work/after"
try 'the index finds the same land' cmp "$work/overlaps" "$work/after"
try 'that is some' grep -q '^[1-9][0-9]*|' "$work/overlaps"
sed -n "s/^default_version = '\(.*\)'/\1/p" "$root/postgresql/township.control" > "$work/newest"
{ echo 1.0.0; cat "$work/newest"; } > "$work/wanted"
version="SELECT extversion FROM pg_extension WHERE extname = 'township'"
sql -d first -c "$version" -c 'ALTER EXTENSION township UPDATE' -c "$version" > "$work/found"
same 'the update of the first version'
contents first > "$work/after"
try 'no value has changed in the update' cmp "$work/first" "$work/after"
sql -d documents -c 'SET search_path = public, township' -c "INSERT INTO leases VALUES
    (6, 'Fox', 'Boise', 'T. 2 N., R. 3 W., sec. 14.', '[2024-01-01,2025-01-01)')" | head -n 1 > "$work/found"
echo 'ERROR:  conflicting key value violates exclusion constraint "no_land_twice"' > "$work/wanted"
same 'the constraint of the leases'
stop "$new" "$work/server/17"
