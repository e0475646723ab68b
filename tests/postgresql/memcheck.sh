# The same hostile values once more, and some queries, in a single process under memcheck. The server itself
# writes bytes that were never set, so only what memcheck says of the extension and the library counts.
if has valgrind && [ -f "$work/hostile.sql" ]; then
    sed '1d; s/\\/\\\\/g; s/\\\\\([nt]\)/\\\1/g' "$root/tests/descriptions/written.tsv" | sql -d received -c 'CREATE TABLE written (id text, source text,
        weight text, description text, land text, forms text)' -c 'COPY written FROM STDIN'
    (cd "$work/server" && as_server pg_ctl -D "$work/server/data" -m fast -w stop) > "$work/lost" 2>&1
    {
        head -n 1500 "$work/hostile.sql" | sed 's/^\\copy/COPY/; s/ with (format binary)/ WITH (FORMAT binary)/'
        cat << 'END'
SELECT acres(plat, 'sec. 5, lot 1.'), refusal(plat, 'sec. 5, N1/2.'), notes(plat, 'sec. 14, NE1/4 SE1/4.') FROM plats
SELECT area(plat, 'sec. 7, lot 1.'), normal(plat, 'sec. 7, lot 1; sec. 8.'), plat::text::plat FROM plats
SELECT count(suggested) FROM plats, written, suggest(plat, description) AS suggested
SELECT count(suggested), count(unread) FROM plats, written, suggest(plat, description, ARRAY['and', 'the', 'of']) AS suggested, unread(description, '{a,b}')
SELECT count(suggested) FROM written, suggest(left(description, length(description) / 2)) AS suggested
SELECT count(refused), count(noted) FROM plats, written, refusal(plat, description) AS refused, notes(plat, description) AS noted
SELECT union_of(land) FROM lands WHERE township(land) = 'T. 1 N., R. 1 W.'
SELECT overlaps(id, land) FROM lands
SELECT count(*) FROM lands a, lands b WHERE a.land && b.land OR a.land @> b.land OR a.land = b.land
SELECT count((a.land + b.land) - (a.land * b.land)) FROM lands a, lands b WHERE township(a.land) = township(b.land)
INSERT INTO lands SELECT id + 10000, land FROM lands
REINDEX TABLE lands
SELECT count(value::text::land) FROM received_land
SELECT count(svg(value)) FROM (SELECT value FROM received_land LIMIT 20) AS some
SELECT count(svg(plat, land, 14)) FROM plats, lands WHERE township(land) = township(plat)
SELECT count(cell) FROM received_land, quarter_quarters(value) AS cell WHERE NOT has_own_lots(value)
SELECT count(plat_date(value)) FROM received_land
SELECT count(cell) FROM lot_tables, quarter_quarters(lots, land(lots, 'secs. 1 thru 36.')) AS cell
SELECT count(part) FROM lot_tables, parts(lots, land(lots, 'sec. 14, S1/2.')) AS part
SELECT count(suggested), count(unread(lots, description, '{and}')) FROM lot_tables, written, suggest(lots, description, '{and,the,of}') AS suggested
SELECT count(svg(lots, land(lots, 'sec. 14, S1/2.'))), count(svg(lots, land(lots, 'sec. 36.'), 14)) FROM lot_tables
SELECT count(land(lots, 'sec. 14.')), count(normal(lots, 'sec. 14, S1/2.')), count(normal(lots, land(lots, 'sec. 36.'))) FROM lot_tables
SELECT count(land_or_null('plat ' || left('1912-03-04 with its lots: T2N R3W sec. 14', n))) FROM generate_series(0, 41) AS n
SELECT acres(plat::text, 'sec. 5, lot 1.'), township(plat::text), township(land::text) FROM plats, lands WHERE lands.id = 1001
SELECT tract_list(id, description ORDER BY id) AS list INTO lists FROM (SELECT * FROM written ORDER BY id LIMIT 900) AS some
SELECT count(answer) FROM plats, lists, report(plat, list) AS answer
SELECT count(answer), count(notes(lots, 'sec. 14, NE1/4 SE1/4.')) FROM lot_tables, lists, report(lots, list) AS answer
SELECT count(shared) FROM plats, lists, overlaps(plat, list) AS shared
SELECT count(shared) FROM lot_tables, lists, overlaps(lots, list) AS shared
SELECT count(value::text::plat) FROM received_plat
SELECT count(value::text::lots) FROM received_lots
SELECT 'checked' AS all_of_it
END
    } > "$work/single.sql"
    (
        cd "$work/server"
        as_server valgrind --error-limit=no --num-callers=30 --log-file="$work/server/memcheck" \
            "$installed$postgres/bin/postgres" --single -D "$work/server/data" received
    ) < "$work/single.sql" > "$work/single" 2>&1
    try 'a single process under memcheck' grep -q 'all_of_it = "checked"' "$work/single"
    try 'memcheck' grep -q 'ERROR SUMMARY' "$work/server/memcheck"
    grep 'twpg_\|township_' "$work/server/memcheck" > "$work/found"
    : > "$work/wanted"
    same 'what memcheck says of the extension'
else
    skip 'PostgreSQL under memcheck: no valgrind'
fi
