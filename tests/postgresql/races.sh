# Leases that 16 connections insert at the same time, in the form that docs/POSTGRESQL.md shows: a lease whose land is
# taken is not inserted, and nothing fails. All of them try the same made-up descriptions of a few townships, each in an
# order of its own. In the end no two leases overlap, and each that was left out overlaps one that was not. The server
# looks for deadlocks as it does by default; there are none, and nobody waits long. A plain INSERT of such a lease would
# be an error, and transactions that wait for each other would end in deadlocks.
new_database races
sql -d races -f "$tests/made_up.sql" > "$work/lost"
sql -d races << 'END' > "$work/lost" 2>&1
CREATE TABLE leases (id int, land land NOT NULL, CONSTRAINT no_land_twice EXCLUDE USING gist (land WITH &&));
CREATE TABLE tried (id int, land land NOT NULL);
INSERT INTO tried SELECT n, land(made_up_township(n, 5), made_up_description(n)) FROM generate_series(1, 400) AS n;
CREATE TABLE answers (id int, is_leased boolean, waited interval);
CREATE PROCEDURE try_all(connection int) LANGUAGE plpgsql AS $$
DECLARE
    next record;
    leased int;
    begun timestamptz;
BEGIN
    FOR next IN SELECT id, land FROM tried ORDER BY chance(id, connection, 1000000) LOOP
        leased := NULL;
        begun := clock_timestamp();
        INSERT INTO leases VALUES (next.id, next.land) ON CONFLICT DO NOTHING RETURNING id INTO leased;
        INSERT INTO answers VALUES (next.id, leased IS NOT NULL, clock_timestamp() - begun);
        COMMIT;
    END LOOP;
END $$;
END
racers=
for connection in 1 2 3 4 5 6 7 8 9 10 11 12 13 14 15 16; do
    sql -d races -c "CALL try_all($connection)" > "$work/race.$connection" 2>&1 &
    racers="$racers $!"
done
wait $racers
cat "$work"/race.* > "$work/found"
: > "$work/wanted"
same 'errors of the races'
shows 'each try was answered' 6400 sql -d races -c 'SELECT count(*) FROM answers'
shows 'what was answered is what was leased' t sql -d races -c '
    SELECT (SELECT count(*) FROM answers WHERE is_leased) = (SELECT count(*) FROM leases)'
shows 'no two leases overlap' 0 sql -d races -c 'SET enable_indexscan = off; SET enable_bitmapscan = off' -c '
    SELECT count(*) FROM leases a JOIN leases b ON a.land && b.land AND a.ctid < b.ctid'
shows 'what was left out overlaps a lease' 0 sql -d races -c '
    SELECT count(*) FROM tried WHERE NOT EXISTS (SELECT FROM leases WHERE leases.land && tried.land)'
shows 'no deadlock' 0 sql -d races -c "SELECT deadlocks FROM pg_stat_database WHERE datname = 'races'"
# The longest wait for an answer was 0.3 s on four idle processors; other tests run beside this.
shows 'nobody waits 10 seconds' t sql -d races -c "SELECT max(waited) < interval '10 seconds' FROM answers"
try 'the races were races' [ "$(sql -d races -c 'SELECT count(*) FROM leases')" -gt 20 ]

# Leases on two plats of each township, from 8 connections at the same time. Each connection leases land on one of the
# plats, in a section of its own, so that no two leases share land. In the end no township has leases on both plats:
# whoever came second was refused.
new_database plats
sql -d plats << 'END' > "$work/lost" 2>&1
CREATE TABLE leases (land land NOT NULL, CONSTRAINT no_land_twice EXCLUDE USING gist (land WITH &&));
CREATE TABLE refused (connection int);
CREATE PROCEDURE try_all(connection int) LANGUAGE plpgsql AS $$
DECLARE
    plat text := CASE connection % 2 WHEN 0 THEN 'plat 1912-03-04' ELSE 'plat 1935-06-01 with its lots' END;
BEGIN
    FOR n IN 0..79 LOOP
        BEGIN
            INSERT INTO leases VALUES (format('%s: T. %s N., R. 3 W., sec. %s, %s1/4.', plat, 1 + n % 20, 8 + connection,
                (ARRAY['NE', 'NW', 'SW', 'SE'])[1 + n / 20])::land)
            ON CONFLICT DO NOTHING;
        EXCEPTION WHEN SQLSTATE 'TW112' THEN
            INSERT INTO refused VALUES (connection);
        END;
        COMMIT;
    END LOOP;
END $$;
END
racers=
for connection in 1 2 3 4 5 6 7 8; do
    sql -d plats -c "CALL try_all($connection)" > "$work/race.$connection" 2>&1 &
    racers="$racers $!"
done
wait $racers
for connection in 1 2 3 4 5 6 7 8; do cat "$work/race.$connection"; done > "$work/found"
: > "$work/wanted"
same 'errors of the races on two plats'
shows 'no township has leases on two plats' 0 sql -d plats -c '
    SELECT count(*) FROM (SELECT FROM leases GROUP BY township(land) HAVING count(DISTINCT plat_date(land)) > 1) AS mixed'
shows 'each township has leases' 20 sql -d plats -c 'SELECT count(DISTINCT township(land)) FROM leases'
try 'leases on another plat are refused' [ "$(sql -d plats -c 'SELECT count(*) FROM refused')" -gt 300 ]
