# Queries in parallel, queries that are canceled, and memory that a connection keeps.
new_database queries
sql -d queries -v notes="$(cat "$root/samples/b1.csv")" << 'END' > "$work/lost"
CREATE TABLE plats (id int PRIMARY KEY, plat plat);
INSERT INTO plats VALUES (1, :'notes');
CREATE TABLE descriptions (plat int, description text);
INSERT INTO descriptions
SELECT 1, (ARRAY['sec. 5, lot 1.', 'sec. 14, NE1/4.', 'sec. 7, lots 1 to 4.', 'sec. 36.'])[1 + n % 4]
FROM generate_series(0, 39999) AS n;
ANALYZE;
END
total='SELECT sum(acres(plats.plat, description)) FROM descriptions JOIN plats ON plats.id = descriptions.plat'
workers="SET max_parallel_workers_per_gather = 2; SET parallel_setup_cost = 0; SET min_parallel_table_scan_size = 0"
# 10,000 times 40.45 + 160 + 156.40 + 640 acres.
shows 'the acres of 40,000 descriptions' 9968500.00 sql -d queries -c "$total"
shows 'the same in parallel' 9968500.00 sql -d queries -c "$workers" -c "$total"
sql -d queries -c "$workers" -c "EXPLAIN (COSTS OFF) $total" > "$work/plan"
try 'the query runs in parallel' grep -q 'Workers Planned: 2' "$work/plan"
try 'the acres are computed by the workers' grep -q 'Partial Aggregate' "$work/plan"

# Aggregates of land, too.
sql -d queries -f "$tests/made_up.sql" > "$work/lost"
sql -d queries -c "CREATE TABLE lands AS SELECT land(made_up_township(1, 1), made_up_description(n)) AS land
    FROM generate_series(1, 5000) AS n" -c 'ANALYZE lands' > "$work/lost"
united='SELECT union_of(land) FROM lands'
sql -d queries -c 'SET max_parallel_workers_per_gather = 0' -c "$united" > "$work/wanted"
sql -d queries -c "$workers" -c "$united" > "$work/found"
same 'the union of 5,000 lands in parallel'
sql -d queries -c "$workers" -c "EXPLAIN (COSTS OFF) $united" > "$work/plan"
try 'the union is made by the workers' grep -q 'Partial Aggregate' "$work/plan"

# The planner expects about as many pairs that overlap as there are: 19,912 of these 16 million.
sql -d queries -c "CREATE TABLE spread AS SELECT land(made_up_township(n, 40), made_up_description(n)) AS land
    FROM generate_series(1, 4000) AS n" -c 'ANALYZE spread' > "$work/lost"
pairs='SELECT FROM spread a JOIN spread b ON a.land && b.land'
expected=$(sql -d queries -c "EXPLAIN $pairs" | sed -n '1s/.* rows=\([0-9]*\) .*/\1/p')
shows 'pairs that overlap' 19912 sql -d queries -c "SELECT count(*) FROM ($pairs) AS pairs"
try "the planner expects enough of them: $expected" [ "${expected:-0}" -gt 5000 ]
try "the planner expects not too many: $expected" [ "${expected:-0}" -lt 80000 ]

# And about as many lands that overlap given land: 110 of these 4,000.
given="SELECT FROM spread WHERE land && 'T. 1 N., R. 1 W., secs. 8 thru 17.'"
expected=$(sql -d queries -c "EXPLAIN $given" | sed -n '1s/.* rows=\([0-9]*\) .*/\1/p')
shows 'lands that overlap given land' 110 sql -d queries -c "SELECT count(*) FROM ($given) AS lands"
try "the planner expects enough of them: $expected" [ "${expected:-0}" -gt 50 ]
try "the planner expects not too many: $expected" [ "${expected:-0}" -lt 400 ]

# An aggregate with 200 million pairs to compare ends at once when its time is over.
sql -d queries -c "CREATE TABLE crowded AS SELECT n AS id, land(made_up_township(1, 1), made_up_description(n)) AS land
    FROM generate_series(1, 20000) AS n" > "$work/lost"
begun=$(date +%s)
shows 'an aggregate is canceled' 'ERROR:  canceling statement due to statement timeout' \
    psql -X -q -A -t -d queries -c 'SET statement_timeout = 300' -c 'SELECT overlaps(id, land) FROM crowded'
try 'it is canceled at once' [ $(($(date +%s) - begun)) -lt 5 ]

# So does the planning of a join, which compares 100 million pairs for each of its conditions if the statistics are the
# largest.
sql -d queries -c 'SET default_statistics_target = 10000' -c "CREATE TABLE many AS
    SELECT land(made_up_township(n, 40), made_up_description(n)) AS land FROM generate_series(1, 30000) AS n" \
    -c 'ANALYZE many' > "$work/lost"
try 'the statistics are large' [ "$(sql -d queries -c "
    SELECT cardinality(histogram_bounds) FROM (SELECT histogram_bounds::text::land[] FROM pg_stats WHERE tablename = 'many') AS s")" -gt 9000 ]
begun=$(date +%s)
shows 'planning is canceled' 'ERROR:  canceling statement due to statement timeout' \
    psql -X -q -A -t -d queries -c 'SET statement_timeout = 300' -c 'EXPLAIN SELECT FROM many a
    JOIN many b ON a.land && b.land JOIN many c ON b.land @> c.land JOIN many d ON c.land <@ d.land'
try 'it is canceled before it ends' [ $(($(date +%s) - begun)) -lt 5 ]

# A long query ends when it is canceled, and when its time is over.
long="SELECT count(acres(plat, 'sec. 14, NE1/4.' || repeat(' ', n::int % 7)))
    FROM plats, generate_series(1, 1000000000) AS n"
shows 'a statement timeout' 'ERROR:  canceling statement due to statement timeout' \
    timeout 30 psql -X -q -A -t -d queries -c 'SET statement_timeout = 300' -c "$long"
PGAPPNAME=long psql -X -q -A -t -d queries -c "$long" > "$work/canceled" 2>&1 &
canceled=$!
tries=0
until [ "$(sql -c "SELECT count(pg_cancel_backend(pid)) FROM pg_stat_activity WHERE application_name = 'long' AND
    state = 'active' AND query LIKE 'SELECT count(acres%'")" = 1 ] || [ $tries = 300 ]; do
    tries=$((tries + 1))
    sleep 0.1
done
wait $canceled
shows 'a canceled query' 'ERROR:  canceling statement due to user request' cat "$work/canceled"

# A million answers, refusals, explanations, and readings leave nothing in the memory of the server's process: its
# growth, in KiB, from the end of the first tenth.
cat > "$work/memory.sql" << 'END'
CREATE FUNCTION resident() RETURNS int LANGUAGE sql AS
$$ SELECT substring(pg_read_file('/proc/self/status', 0, 4000) FROM 'VmRSS:\s+([0-9]+)')::int $$;
CREATE FUNCTION work(many int) RETURNS int8 LANGUAGE sql VOLATILE AS $$
    SELECT sum(coalesce(length(normal(plat, CASE WHEN n % 2 = 0 THEN 'sec. 14, SE1/4.' ELSE 'sec. 15.' END)), 0)
               + coalesce((refusal(plat, 'sec. 5, lot ' || 5 + n % 9)).number, 0)
               + coalesce(acres_or_null(plat, 'sec. 5, lot ' || n % 9), 0)
               + (area(plat, 'sec. 7, lot 1.')).denominator
               + (SELECT sum(length(coalesce(reading, reason)) + cardinality(coalesce(assumes, '{}')))
                  FROM suggest(plat, (ARRAY['NE/4 Sec. 14, Boise Meridian', 'sec. 14: NE4 SW4', 'a portion'])[1 + n % 3])))::int8
    FROM plats, generate_series(1, many) AS n
$$;
SELECT work(20000) > 0 AS done;
SELECT resident() AS before \gset
SELECT work(200000) > 0 AS done;
SELECT CASE WHEN resident() - :before < 2048 THEN 'kept' ELSE 'grown by ' || resident() - :before END;
END
shows 'nothing is kept in memory' 't
t
kept' sql -d queries -f "$work/memory.sql"
