#!/bin/sh
# Measures the extension for PostgreSQL: how many descriptions it answers per second with 1, 2, and 4 workers;
# how large stored lands are; how long an index on lands takes to build and to answer; and how many leases are
# inserted under an exclusion constraint. It takes the library in lib/, and starts a server of its own. The
# words are how many descriptions (10,000,000), lands (1,000,000), and townships (1,000) there are. With the
# first ones it takes some 5 minutes and 4 GB of the disk.
. "$(dirname "$0")/../tests/lib.sh"
. "$root/tests/postgresql/server.sh"
descriptions=${1:-10000000}
lands=${2:-1000000}
townships=${3:-1000}
library=${4:-$root/lib}
headers=${5:-$root/include}
trap 'stop_server; rm -rf "$work"' EXIT
trap 'exit 1' HUP INT TERM
compile_extension "$library" "$headers" && install_server "$library" "$headers" || exit 1
start_server || exit 1
sql -c "ALTER SYSTEM SET shared_buffers = '1GB'" -c "ALTER SYSTEM SET max_wal_size = '8GB'" \
    -c "ALTER SYSTEM SET maintenance_work_mem = '512MB'" -c 'ALTER SYSTEM SET wal_level = minimal' \
    -c 'ALTER SYSTEM SET max_wal_senders = 0' -c 'ALTER SYSTEM SET jit = off' -c 'ALTER SYSTEM SET autovacuum = off'
(cd "$work/server" && as_server pg_ctl -D "$work/server/data" -l "$work/server/log" -w restart) > "$work/lost"

# Seconds since a time, and how many of something that is in a second.
since() { awk -v from="$1" -v to="$(date +%s.%N)" 'BEGIN { printf "%.2f", to - from }'; }
rate() { awk -v count="$1" -v seconds="$2" 'BEGIN { printf "%d", count / seconds }'; }
row() { printf '%-60s %s\n' "$1" "$2"; }

# Plats of the townships, whose closing lines differ.
sql -v notes="$(cat "$root/samples/b1.csv")" -v townships="$townships" << 'END'
CREATE EXTENSION township;
CREATE TABLE plats (id int PRIMARY KEY, township text NOT NULL, plat plat NOT NULL);
INSERT INTO plats
SELECT n, township(plat), plat FROM generate_series(0, :townships - 1) AS n, LATERAL (
    SELECT replace(replace(:'notes', 'T,2,N,3,W', format('T,%s,N,%s,W', 1 + n % 40, 1 + n / 40)), '40.00,80.80',
        '40.00,80.' || 10 + n % 80)::plat AS plat
) AS made;
CREATE TABLE descriptions (township int NOT NULL, description text NOT NULL);
ANALYZE plats;
END

# Loading, by COPY from as many processes as there are cores.
cores=$(nproc)
python=$(python_with random) || exit 1
export PYTHONPATH="$root/bindings/python/src" TOWNSHIP_LIBRARY="$root/lib/libtownship.so" PYTHONDONTWRITEBYTECODE=1
part=0
while [ $part -lt "$cores" ]; do
    "$python" "$root/bench/postgresql.py" $part "$cores" "$descriptions" "$townships" > "$work/part.$part" &
    part=$((part + 1))
done
wait
begun=$(date +%s.%N)
part=0
while [ $part -lt "$cores" ]; do
    sql -c 'COPY descriptions FROM STDIN' < "$work/part.$part" &
    part=$((part + 1))
done
wait
seconds=$(since "$begun")
row 'descriptions loaded per second, by COPY' "$(rate "$descriptions" "$seconds")"
rm "$work"/part.*
sql -c 'VACUUM ANALYZE descriptions'

# The answers, by one process and by workers alone, without the leader.
answers='SELECT count(acres_or_null(plat, description))
    FROM descriptions JOIN plats ON plats.id = descriptions.township'
settings='SET parallel_leader_participation = off; SET parallel_setup_cost = 0; SET parallel_tuple_cost = 0'
for workers in 0 1 2 4; do
    begun=$(date +%s.%N)
    answered=$(sql -c "$settings" -c "SET max_parallel_workers_per_gather = $workers" -c "$answers")
    seconds=$(since "$begun")
    row "descriptions answered per second, $workers workers" "$(rate "$descriptions" "$seconds") ($answered accepted)"
done
begun=$(date +%s.%N)
sql -c "$settings" -c 'SET max_parallel_workers_per_gather = 4' -c 'SELECT count(length(description)) FROM descriptions
    JOIN plats ON plats.id = descriptions.township WHERE plats.plat IS NOT NULL' > "$work/lost"
row 'the same query without an answer, 4 workers' "$(rate "$descriptions" "$(since "$begun")")"

# Lands of descriptions, as they are stored.
begun=$(date +%s.%N)
sql << END
CREATE TABLE lands AS SELECT row_number() OVER () AS id, land FROM (
    SELECT land_or_null(plats.township, description) AS land
    FROM descriptions JOIN plats ON plats.id = descriptions.township
    LIMIT $lands + $lands / 20
) AS read WHERE land IS NOT NULL LIMIT $lands;
END
row 'lands read and stored per second, one process' "$(rate "$lands" "$(since "$begun")")"
sql -c 'VACUUM ANALYZE lands'
row 'bytes of a stored land, on average' "$(sql -c 'SELECT round(avg(pg_column_size(land)), 1) FROM lands')"
begun=$(date +%s.%N)
sql -c 'CREATE INDEX lands_gist ON lands USING gist (land)'
row 'seconds to build the GiST index' "$(since "$begun")"
row 'its size, in MB' "$(sql -c "SELECT round(pg_relation_size('lands_gist') / 1e6, 1)")"
row 'the size of the table, in MB' "$(sql -c "SELECT round(pg_relation_size('lands') / 1e6, 1)")"

# Single lookups, of random lands of the table, on one connection.
cat > "$work/lookup.sql" << END
\set id random(1, $lands)
SELECT count(*) FROM lands WHERE land && (SELECT land FROM lands WHERE id = :id);
END
sql -c 'CREATE UNIQUE INDEX ON lands (id)'
pgbench -n -M prepared -T 5 -f "$work/lookup.sql" > "$work/lookups" 2>&1
row 'milliseconds to find what overlaps a land' "$(sed -n 's/^latency average = \([0-9.]*\) ms/\1/p' "$work/lookups")"
row 'overlapping lands found, on average' "$(sql -c "SELECT round(avg(count), 1) FROM (
    SELECT (SELECT count(*) FROM lands b WHERE b.land && a.land) AS count
    FROM lands a WHERE id % ($lands / 1000) = 0) AS counts")"

# Leases under an exclusion constraint, from 16 connections.
sql -c 'CREATE TABLE leases (land land NOT NULL, EXCLUDE USING gist (land WITH &&))'
cat > "$work/lease.sql" << END
\set id random(1, $lands)
INSERT INTO leases SELECT land FROM lands WHERE id = :id ON CONFLICT DO NOTHING;
END
pgbench -n -M prepared -c 16 -j 4 -T 10 -f "$work/lease.sql" > "$work/leases" 2>&1
row 'leases tried per second, 16 connections' "$(sed -n 's/^tps = \([0-9]*\).*/\1/p' "$work/leases")"
row 'leases in the table then' "$(sql -c 'SELECT count(*) FROM leases')"
row 'pairs of them that overlap' "$(sql -c 'SELECT count(*) FROM leases a JOIN leases b ON a.land && b.land
    AND a.ctid < b.ctid')"
