# Databases in which an earlier version of the extension was created: the update adds what is new, and changes nothing
# else. `pg_upgrade` and a dump lead to the newest version, too.
newest=$(sed -n "s/^default_version = '\(.*\)'/\1/p" "$root/postgresql/township.control")
version_in() { sql -d "$1" -c "SELECT extversion FROM pg_extension WHERE extname = 'township'"; }
# What belongs to the extension, with the definitions of its functions.
members_of() {
    sql -d "$1" << 'END'
SELECT pg_describe_object(classid, objid, objsubid) AS member,
       CASE WHEN classid = 'pg_proc'::regclass AND (SELECT prokind FROM pg_proc WHERE oid = objid) = 'f'
            THEN pg_get_functiondef(objid) END,
       obj_description(objid, classid::regclass::text::name)
FROM pg_depend WHERE refclassid = 'pg_extension'::regclass AND deptype = 'e'
    AND refobjid = (SELECT oid FROM pg_extension WHERE extname = 'township')
ORDER BY pg_describe_object(classid, objid, objsubid) COLLATE "C";
END
}
# A database of the first version: values, indexes, constraints, and what uses functions.
try 'a database of the first version' createdb -T template0 first
sql -d first -c "CREATE EXTENSION township VERSION '1.0.0'"
sql -d first -v notes="$(cat "$root/samples/b1.csv")" -f "$tests/made_up.sql" -f "$tests/dumps.sql" > "$work/lost"
sql -d first << 'END'
CREATE VIEW measured AS SELECT lands.id, acres_or_null(plat, description) AS acres, land
FROM plats, lands, LATERAL (SELECT 'sec. 14.'::text AS description) AS described WHERE lands.id < 10;
END
tables=$(sql -d first -c "SELECT tablename FROM pg_tables WHERE schemaname = 'public' ORDER BY 1")
# How many rows each table has, since comparing empty ones would show nothing: dumps.sql makes 500 lands and 10 more, of
# which the view has the first 9.
rows_in() { for table in $tables measured; do echo "$table $(sql -d "$1" -c "SELECT count(*) FROM $table")"; done; }
shows 'the rows of the first version' 'lands 510
leases 2
lot_tables 3
plats 1
measured 9' rows_in first
contents() { for table in $tables measured; do sql -d "$1" -c "COPY (SELECT * FROM $table ORDER BY 1) TO STDOUT"; done; }
contents first > "$work/before"
shows 'the first version' 1.0.0 version_in first
members_of first > "$work/members.first"
pg_dump -d first -f "$work/first.dump"

new_database fresh
members_of fresh > "$work/members"
try 'the newest version has more' [ "$(wc -l < "$work/members")" -gt "$(wc -l < "$work/members.first")" ]
update=$(sed -n 's/^    \(ALTER EXTENSION township UPDATE;\)$/\1/p' "$root/docs/POSTGRESQL.md")
shows 'the update' '' sql -d first -c "$update"
shows 'the newest version' "$newest" version_in first
contents first > "$work/after"
try 'the update changes no value' cmp "$work/before" "$work/after"
members_of first > "$work/members.updated"
try 'what is updated is what is new' cmp "$work/members" "$work/members.updated"
shows 'each version leads to the newest' 0 sql -d first -c "
    SELECT count(*) FROM pg_extension_update_paths('township') WHERE target = '$newest' AND path IS NULL"
# A dump of the first version is restored with the newest one.
try 'the database restored' createdb -T template0 restored
try 'it is restored' psql -X -q -v ON_ERROR_STOP=1 -d restored -f "$work/first.dump"
shows 'the version of what is restored' "$newest" version_in restored
contents restored > "$work/after"
try 'what is restored is whole' cmp "$work/before" "$work/after"

# pg_upgrade moves the data files of a server as they are. Both servers are of this version of PostgreSQL: what counts
# is that nothing stored depends on numbers that a new server gives out anew.
mkdir "$work/moved"
[ "$(id -u)" != 0 ] || chown postgres "$work/moved"
moving() { (cd "$work/moved" && as_server "$@") > "$work/moving" 2>&1; }
server_at() { moving "$installed$postgres/bin/pg_ctl" -D "$work/moved/$1" -w -t 60 -l "$work/moved/log" \
    -o "-c listen_addresses='' -c unix_socket_directories='$work/moved' -c fsync=off" start; }
there() { (PGHOST=$work/moved && "$@"); }
for server in old new; do
    try "a server to upgrade: $server" moving "$installed$postgres/bin/initdb" -D "$work/moved/$server" -A trust \
        -U postgres -E UTF8 --no-locale -N
done
try 'the old server starts' server_at old
# Other objects come first, so that the numbers of the types are others than in the new server.
there sql -c 'CREATE TABLE some (id serial)' -c "CREATE TYPE shape AS ENUM ('square')" > "$work/lost"
try 'a database of the old server' there createdb -T template0 first
there psql -X -q -d first -f "$work/first.dump" > "$work/lost" 2>&1
there contents first > "$work/after"
try 'the old server has the values' cmp "$work/before" "$work/after"
try 'the old server stops' moving "$installed$postgres/bin/pg_ctl" -D "$work/moved/old" -m fast -w stop
try 'pg_upgrade' moving "$installed$postgres/bin/pg_upgrade" -b "$installed$postgres/bin" -B "$installed$postgres/bin" \
    -d "$work/moved/old" -D "$work/moved/new" -U postgres -s "$work/moved"
try 'the new server starts' server_at new
there contents first > "$work/after"
try 'pg_upgrade changes no value' cmp "$work/before" "$work/after"
overlaps='SELECT count(*), sum(a.id::int8 * b.id) FROM lands a JOIN lands b ON a.land && b.land'
there sql -d first -c 'SET enable_indexscan = off; SET enable_bitmapscan = off' -c "$overlaps" > "$work/wanted"
there sql -d first -c 'SET enable_seqscan = off' -c "$overlaps" > "$work/found"
same 'the index after pg_upgrade'
try 'lands overlap in the new server' grep -q '^[1-9][0-9]*|' "$work/wanted"
try 'the new server stops' moving "$installed$postgres/bin/pg_ctl" -D "$work/moved/new" -m fast -w stop
