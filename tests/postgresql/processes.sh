# A process of the server is killed while it inserts lands into an indexed table. Of its statement nothing is
# left, all that was committed before it is there, and the index finds the same lands as a scan of the table.
new_database killed
sql -d killed -f "$tests/made_up.sql" > "$work/lost"
sql -d killed << 'END' > "$work/lost" 2>&1
CREATE TABLE lands (id int, land land NOT NULL);
CREATE INDEX ON lands USING gist (land);
INSERT INTO lands SELECT n, land(made_up_township(n, 20), made_up_description(n)) FROM generate_series(1, 2000) AS n;
END
PGAPPNAME=inserting psql -X -q -A -t -d killed -c "
    INSERT INTO lands
    SELECT n, land(made_up_township(n, 20), made_up_description(n)) FROM generate_series(1, 10000000) AS n" \
    > "$work/insertion" 2>&1 &
insertion=$!
# A busy machine takes longer until it inserts.
inserting=
tries=0
until [ -n "$inserting" ] || [ $tries = 300 ]; do
    tries=$((tries + 1))
    sleep 0.1
    inserting=$(sql -c "SELECT pid FROM pg_stat_activity WHERE application_name = 'inserting' AND state = 'active'")
done
sleep 2
try 'a process that inserts is killed' kill -9 "$inserting"
wait $insertion
tries=0
until [ "$(sql -d killed -c 'SELECT 1')" = 1 ] || [ $tries = 300 ]; do
    tries=$((tries + 1))
    sleep 0.1
done
shows 'what was committed is there, and nothing else' '2000|2000|1' sql -d killed -c '
    SELECT count(*), max(id), min(id) FROM lands'
overlaps='SELECT count(*), sum(a.id::int8 * b.id) FROM lands a JOIN lands b ON a.land && b.land'
sql -d killed -c 'SET enable_indexscan = off; SET enable_bitmapscan = off' -c "$overlaps" > "$work/wanted"
sql -d killed -c 'SET enable_seqscan = off' -c "$overlaps" > "$work/found"
same 'the index after a crash'
sql -d killed -c 'SET enable_seqscan = off' -c "EXPLAIN (COSTS OFF) $overlaps" > "$work/plan"
try 'the index is used' grep -q 'using lands_land_idx' "$work/plan"
