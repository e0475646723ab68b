# Readings in SQL: the worked examples of crates/twp_trials, and descriptions from practice, with the land that an
# examiner understands.
new_database readings
sql -d readings -v notes="$(cat "$root/samples/b1.csv")" << 'END' > "$work/lost"
CREATE TABLE plats (plat plat);
INSERT INTO plats VALUES (:'notes');
CREATE TABLE examples (id serial, text text);
CREATE TABLE written (id text, source text, weight text, description text, land text, forms text);
END
# COPY reads \n and \t in these files as what they stand for. Other backslashes are doubled for it.
sed '1,/^$/d' "$root/crates/twp_trials/stdin" > "$work/examples"
sql -d readings -c 'COPY examples (text) FROM STDIN' < "$work/examples"
sed '1d; s/\\/\\\\/g; s/\\\\\([nt]\)/\\\1/g' "$root/tests/descriptions/written.tsv" | sql -d readings -c 'COPY written FROM STDIN'
all_read 'the worked examples' "$(wc -l < "$work/examples")" \
    "$(sql -d readings -c 'SELECT count(*) FROM examples')"
all_read 'descriptions from practice' "$(sed 1d "$root/tests/descriptions/written.tsv" | wc -l)" \
    "$(sql -d readings -c 'SELECT count(*) FROM written')"

# For each example, how many readings there are, and each reading, with the phrases of what its changes assume. Readings
# are on one line here, with single spaces.
sed '1,/^$/d; s/^\(  .*`\): [^`]*$/\1/; s/\\[nt]/ /g; s/\(.\)  */\1 /g' "$root/crates/twp_trials/stdout" > "$work/wanted"
sql -d readings << 'END' > "$work/found"
SELECT line
FROM examples, LATERAL (
    SELECT 0 AS reading_number, 0 AS number, count(reading)::text AS line FROM suggest(text)
    UNION ALL
    SELECT ordinality, 0, reading FROM suggest(text) WITH ORDINALITY WHERE reading IS NOT NULL
    UNION ALL
    SELECT suggested.ordinality, assumed.ordinality, '  ' || regexp_replace(words, '`: [^`]*$', '`')
    FROM suggest(text) WITH ORDINALITY AS suggested, unnest(assumes) WITH ORDINALITY AS assumed (words)
    WHERE words <> 'the plat has the standard lots'
) AS lines
ORDER BY id, reading_number, number;
END
same 'the worked readings'

# If a text can be read in one way only, that is the land understood; if in several, they include it. If lots and aliquot
# parts can't describe the land, no reading has acres.
shows 'readings of other land than the land understood' '' sql -d readings << 'END'
SELECT id, min(reading), land
FROM plats, written, suggest(plat, description)
GROUP BY id, land, plat
HAVING CASE WHEN land LIKE 'not %' THEN count(acres) > 0
            WHEN land LIKE 'AMB: %' THEN count(acres) = 1
            ELSE count(acres) > 0 AND NOT bool_or(land_or_null(plat, reading) = land_or_null(plat, land)) END;
END
# By a table with the standard lots, the readings are the same; and it is never an assumption that the plat has them.
shows 'readings by a table with the standard lots' 't|0|t' sql -d readings << 'END'
SELECT bool_and(by_table.readings = on_plat.readings), sum(assumed), count(*) > 100
FROM (SELECT DISTINCT description FROM written) AS texts,
    LATERAL (SELECT array_agg(reading ORDER BY ordinality) AS readings, sum((assumes @> '{the plat has the standard lots}')::int) AS assumed
        FROM suggest(E'section,lot,acres\nT,2,N,3,W\n'::lots, description) WITH ORDINALITY) AS by_table,
    LATERAL (SELECT array_agg(reading ORDER BY ordinality) AS readings FROM plats, suggest(plat, description) WITH ORDINALITY) AS on_plat;
END
shows 'acres other than those of the reading' '0|t|t' sql -d readings -c '
    SELECT count(*) FILTER (WHERE acres IS DISTINCT FROM acres_or_null(plat, reading)), count(acres) > 100, count(reason) > 10
    FROM plats, written, suggest(plat, description)'
