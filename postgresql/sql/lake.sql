-- Land on the plats of lot tables: a township with a lake, and other plats of it. `plat.sql` has created the extension
-- and the table of plats.
CREATE SCHEMA lake;
SET search_path = lake, public;
SET datestyle = ISO;
\set heading 'T. 2 N., R. 3 W.'
\set lake `printf 'section,lot,acres,land\nT,2,N,3,W,1912-03-04\n5,1,40.45,NE1/4NE1/4\n14,1,38.50,NE1/4NE1/4\n14,2,12.25,N1/2NW1/4NE1/4\n14,3,19.80,S1/2NW1/4NE1/4\n14,4,71.10,"E1/2NW1/4"\n14,,,NW1/4NW1/4\n'`
CREATE TABLE tables (name text PRIMARY KEY, lots lots);
INSERT INTO tables VALUES ('lake', :'lake'), ('undated lake', replace(:'lake', ',1912-03-04', '')::lots),
    ('dated', E'section,lot,acres\nT,2,N,3,W,1912-03-04\n5,1,40.45\n'), ('standard', E'section,lot,acres\nT,2,N,3,W\n5,1,40.45\n');

-- Which plat land is on, by its table, and how it is written. With lots of its own, they are aliquot parts in its text.
SELECT name, land, plat_date(land), has_own_lots(land), normal(lots, land) AS by_table
FROM tables, land(lots, 'sec. 5, lot 1; sec. 14, S1/2.') AS land ORDER BY name;
SELECT land, normal(lots, land) AS by_table, acres(lots, land), acres(lots, land) = acres(lots, description) AS as_described
FROM tables, (VALUES ('sec. 14, lot 2.'), ('sec. 14, lots 3 and 4, SW1/4NW1/4.'), ('sec. 14.'), ('sec. 5, lot 1, NW1/4NE1/4.'), ('sec. 6.'))
    AS described (description), land(lots, description) AS land WHERE name = 'lake';
SELECT normal(lots, 'sec. 14, lot 3, lot 2; sec. 13, E1/2, NW1/4.') FROM tables WHERE name = 'lake';
SELECT normal(lots, land - land) AS none, land - land AS text, acres(lots, land - land) FROM tables, land(lots, 'sec. 14.') AS land WHERE name = 'lake';
-- Land that was read without a table is on the plat of any table with the standard lots.
SELECT name, acres(lots, land), normal(lots, land), land(lots, 'sec. 5, lot 1.') = land AS same
FROM tables, land(:'heading', 'sec. 5, lot 1.') AS land WHERE name IN ('dated', 'standard') ORDER BY name;
-- Refused descriptions: a lot that this plat lacks, part of a lot, and a quarter with the lake.
SELECT description, land_or_null(lots, description) IS NULL AS refused, number, at
FROM tables, (VALUES ('sec. 14, lot 5.'), ('sec. 5, lot 2.'), ('sec. 14, NE1/4.'), ('sec. 14, lot 1.'), ('sec. 37.'), ('sec. 14, lot 1, lot 1.'))
    AS described (description), refusal(lots, description) AS refused WHERE name = 'lake';
SELECT land_or_null(lots, 'sec. 5, lot 4.') FROM tables ORDER BY name;
-- A literal is taken for a description: by a table without a heading, and otherwise with one.
SELECT land(lots, 'sec. 14, lot 1.') = (land_or_null(lots, 'sec. 14, lot 1.')) AS same, normal(lots, 'sec. 14, lot 1.'),
       plat_date('plat 1912-03-04: T. 2 N., R. 3 W., sec. 14.'), has_own_lots('T. 2 N., R. 3 W., sec. 14.')
FROM tables WHERE name = 'lake';

-- The text is read as the same land, in any spelling of a description, and no plat is written for an ordinary one.
SELECT name, land::text::land = land AS again, township(land::text), length(land_send(land)) AS sent, pg_column_size(land) AS stored
FROM tables, land(lots, 'sec. 14, S1/2.') AS land ORDER BY name;
SELECT land_send(land) FROM tables, land(lots, 'sec. 36.') AS land ORDER BY name;
SELECT 'plat 1912-03-04: t2n r3w section 5: lot 1'::land;
SELECT 'plat 2000-02-29 with its lots: T2N R3W sec 14, N1/2 of the NE1/4'::land;
SELECT 'plat with its lots: T. 99 S., R. 99 E., secs. 1 and 6.'::land, 'plat 0001-01-01: t2n r3w no land'::land AS none;
SELECT 'plat 9999-12-31 with its lots: T2N R3W no land.'::land AS none, has_own_lots('plat with its lots: T2N R3W no land');
SELECT text, land IS NULL AS refused, number, at, message
FROM (VALUES ('plat 1912-03-04: T. 2 N., R. 3 W., sec. 5, lot 1.'), ('plat 1912-02-30: T. 2 N., R. 3 W., sec. 5.'), ('plat 1900-02-29: T2N R3W sec. 5'),
    ('plat 0000-01-01: T2N R3W sec. 5'), ('plat 1912-3-4: T2N R3W sec. 5'), ('plat 1912-03-04 T2N R3W sec. 5'), ('plat: T2N R3W sec. 5'),
    ('plat T2N R3W sec. 5'), ('plat 1912-03-04 with its lots T2N R3W sec. 5'), ('plat'), ('plat 1912-03-04: sec. 5'), ('plat with its lots: '),
    ('plat 1912-03-04: T. 0 N., R. 3 W., sec. 14.'), ('plat 1912-03-04: T2N R3W sec. 5, lot 5'), ('plat 1912-03-04 with its lots: T2N R3W sec. 5, lot 1'))
    AS texts (text), land_or_null(text) AS land, refusal(text) AS refused;
SELECT 'plat 1912-02-30: T. 2 N., R. 3 W., sec. 5.'::land;
SELECT 'plat 1912-03-04: sec. 5.'::land;
SELECT 'Plat 1912-03-04: T. 2 N., R. 3 W., sec. 5.'::land;
SELECT 'plat 1912-03-04: T. 2 N., R. 3 W., sec. 37.'::land;
SELECT 'plat 1912-03-04 with its lots: T. 2 N., R. 3 W., sec. 5, lot 1.'::land;
SELECT township('plat 1912-03-04 T. 2 N., R. 3 W., sec. 5.');

-- Land on two plats of a township is not the same, and to combine or compare it is an error.
CREATE TABLE lands AS SELECT name, land(lots, 'sec. 14, S1/2.') AS land FROM tables;
CREATE FUNCTION outcome(statement text, first land, second land) RETURNS text LANGUAGE plpgsql AS $$
DECLARE
    result text;
BEGIN
    EXECUTE 'SELECT (' || statement || ')::text' INTO result USING first, second;
    RETURN result;
EXCEPTION WHEN SQLSTATE 'TW112' THEN
    RETURN 'TW112';
END $$;
SELECT statement, string_agg(outcome(statement, a.land, b.land), ' ' ORDER BY a.name, b.name) AS outcomes
FROM lands a, lands b, (VALUES ('$1 = $2'), ('$1 && $2'), ('$1 @> $2'), ('$1 <@ $2'), ('isempty($1 + $2)'), ('isempty($1 * $2)'), ('isempty($1 - $2)'), ('touches($1, $2)'))
    AS statements (statement) GROUP BY statement ORDER BY statement COLLATE "C";
SELECT a.land && b.land FROM lands a, lands b WHERE a.name = 'lake' AND b.name = 'undated lake';
SELECT a.land + b.land FROM lands a, lands b WHERE a.name = 'lake' AND b.name = 'dated';
SELECT a.land @> b.land FROM lands a, lands b WHERE a.name = 'dated' AND b.name = 'standard';
SELECT a.land - b.land FROM lands a, lands b WHERE a.name = 'standard' AND b.name = 'undated lake';
-- That is so even if they share no section, or if one of them is empty.
SELECT a.land && (b.land - b.land) FROM lands a, lands b WHERE a.name = 'lake' AND b.name = 'dated';
SELECT land && 'T. 2 N., R. 3 W., sec. 36.' FROM lands WHERE name = 'lake';
SELECT land && 'T. 3 N., R. 3 W., sec. 14.' AS elsewhere, land = 'T. 3 N., R. 3 W., sec. 14.' AS same FROM lands WHERE name = 'lake';
SELECT union_of(land) FROM lands WHERE name LIKE '%lake';
SELECT overlaps(name, land) FROM lands WHERE name LIKE '%lake';
SELECT union_of(land(lots, description)), overlaps(description, land(lots, description) ORDER BY description)
FROM tables, (VALUES ('sec. 14, lot 2.'), ('sec. 14, lots 2 and 3.'), ('sec. 14, lot 4.')) AS described (description) WHERE name = 'lake';

-- Made-up land of sections 5 and 14, on the plat of the table: its texts are read as the same land, lots stay whole, and
-- areas add up.
CREATE TABLE made_up AS
SELECT n AS id, land(lots, format('sec. 14, %s, %s%s; sec. 5, %s.', (ARRAY['lot 1', 'lot 2', 'lots 2 and 3', 'lots 1 to 4'])[1 + n % 4],
    (ARRAY['SW1/4', 'NE1/4SW1/4', 'S1/2SW1/4', 'W1/2SW1/4'])[1 + n / 4 % 4], (ARRAY['', ', E1/2SE1/4', ', SW1/4NW1/4', ', S1/2NE1/4'])[1 + n / 16 % 4],
    (ARRAY['lot 1', 'S1/2', 'lot 1, NW1/4NE1/4', 'W1/2NE1/4'])[1 + n / 64 % 4])) AS land
FROM tables, generate_series(0, 255) AS n WHERE name = 'lake';
SELECT count(DISTINCT land) AS lands, bool_and(land::text::land = land) AS read_again, bool_and(land(lots, normal(lots, land)) = land) AS by_table,
       count(DISTINCT normal(lots, land)) AS texts, sum(acres(lots, land)) AS acres
FROM made_up, tables WHERE name = 'lake';
SELECT count(*) AS pairs, bool_and(acres(lots, a.land + b.land) + acres(lots, a.land * b.land) = acres(lots, a.land) + acres(lots, b.land)) AS sum,
       bool_and((a.land * b.land) + (a.land - b.land) = a.land) AS whole, bool_and(a.land && b.land = NOT isempty(a.land * b.land)) AS shared,
       bool_and(a.land @> b.land = isempty(b.land - a.land)) AS contained, bool_and(land(lots, normal(lots, a.land + b.land)) = a.land + b.land) AS lots
FROM made_up a, made_up b, tables WHERE name = 'lake' AND a.id % 7 = 0 AND b.id % 11 = 0;

-- An order of all of them, by township, plat, and section; and hashes.
CREATE TABLE many AS
SELECT name, format('sec. %s.', n) AS description, land(lots, format('sec. %s.', n)) AS land FROM tables, generate_series(12, 14) AS n;
INSERT INTO many VALUES ('elsewhere', 'sec. 1.', 'T. 1 N., R. 3 W., sec. 1.'), ('elsewhere', 'sec. 14.', 'plat 1999-12-31: T. 3 N., R. 3 W., sec. 14.');
SELECT land FROM many ORDER BY land;
SELECT min(land), max(land), count(DISTINCT land) FROM many;
SELECT count(*) AS pairs, bool_and((a.land < b.land) = (b.land > a.land) AND (a.land <= b.land) = NOT (a.land > b.land)) AS total
FROM many a, many b;
CREATE INDEX many_hash ON many USING hash (land);
SET enable_seqscan = off;
SELECT name FROM many WHERE land = 'plat 1912-03-04: T. 2 N., R. 3 W., sec. 13.';
DROP INDEX many_hash;
CREATE UNIQUE INDEX many_btree ON many (land);
SELECT name FROM many WHERE land = 'plat with its lots: T. 2 N., R. 3 W., sec. 12.';
RESET enable_seqscan;

-- The index on land: on one plat, it finds what a scan finds; and if land is on another plat of that township, wherever
-- it is, a search fails, except for `=`.
CREATE TABLE indexed (id int, land land);
INSERT INTO indexed SELECT n, land(lots, format('sec. %s, %s1/4%s1/4.', 20 + n % 10, (ARRAY['NE', 'NW', 'SW', 'SE'])[1 + n / 3 % 4], (ARRAY['NE', 'NW', 'SW', 'SE'])[1 + n / 7 % 4]))
FROM tables, generate_series(1, 2000) AS n WHERE name = 'lake';
INSERT INTO indexed SELECT n, land(format('T. %s N., R. 3 W.', 3 + n % 3), format('sec. %s, NE1/4.', 8 + n % 10)) FROM generate_series(2001, 3000) AS n;
CREATE INDEX sorted ON indexed USING gist (land);
CREATE FUNCTION found(query text, given land) RETURNS text LANGUAGE plpgsql AS $$
DECLARE
    result text;
BEGIN
    EXECUTE 'SELECT count(*) || '':'' || coalesce(sum(id), 0) FROM indexed WHERE ' || query INTO result USING given;
    RETURN result;
EXCEPTION WHEN SQLSTATE 'TW112' THEN
    RETURN 'TW112';
END $$;
CREATE TABLE searches (query text, given land);
INSERT INTO searches SELECT query, given
FROM (VALUES ('land && $1'), ('land @> $1'), ('land <@ $1'), ('land = $1')) AS queries (query),
    (VALUES ('plat 1912-03-04 with its lots: T. 2 N., R. 3 W., sec. 23, N1/2.'::land), ('plat 1912-03-04 with its lots: T. 2 N., R. 3 W., sec. 21, NE1/4NE1/4.'),
     ('plat 1912-03-04 with its lots: T. 2 N., R. 3 W., sec. 36.'), ('T. 3 N., R. 3 W., sec. 9.'), ('T. 4 N., R. 3 W., sec. 9, NE1/4.'), ('T. 2 N., R. 3 W., sec. 36.'),
     ('plat 1912-03-04: T. 2 N., R. 3 W., sec. 21, NE1/4NE1/4.'), ('plat 1912-03-04: T. 9 N., R. 3 W., sec. 21.')) AS lands (given);
SET enable_seqscan = off;
SET enable_bitmapscan = off;
CREATE TABLE by_index AS SELECT query, given, found(query, given) AS found FROM searches;
SET enable_indexscan = off;
SET enable_seqscan = on;
SELECT query, given, by_index.found, by_index.found = found(query, given) AS as_scanned FROM by_index ORDER BY query COLLATE "C", given;
-- With land on another plat, in a section of its own: each search in this township fails, and no other one does. Here
-- the index grows.
SET enable_indexscan = on;
SET enable_seqscan = off;
DROP INDEX sorted;
CREATE TABLE kept AS SELECT * FROM indexed;
TRUNCATE indexed;
CREATE INDEX grown ON indexed USING gist (land);
INSERT INTO indexed SELECT * FROM kept ORDER BY id % 97, id;
INSERT INTO indexed VALUES (3001, 'plat 1935-06-01 with its lots: T. 2 N., R. 3 W., sec. 1.');
CREATE TABLE by_grown AS SELECT query, given, found(query, given) AS found FROM searches;
REINDEX INDEX grown;
SELECT query, given, by_grown.found, found(query, given) = by_grown.found AS as_sorted, by_index.found = by_grown.found AS as_before
FROM by_grown JOIN by_index USING (query, given) ORDER BY query COLLATE "C", given;
RESET enable_seqscan;
RESET enable_bitmapscan;
-- Plans are made without an error, even if they are of queries that fail.
ANALYZE indexed;
CREATE FUNCTION planned(query text) RETURNS int LANGUAGE plpgsql AS $$
BEGIN
    EXECUTE 'EXPLAIN SELECT FROM indexed WHERE ' || query;
    RETURN 1;
END $$;
SELECT sum(planned(replace(query, '$1', quote_literal(given::text)))) AS plans FROM searches;

-- No two leases share land, and none can be of another plat at the same time.
CREATE TABLE leases (id int, land land, EXCLUDE USING gist (land WITH &&));
INSERT INTO leases SELECT 1, land(lots, 'sec. 14, lots 1 and 2.') FROM tables WHERE name = 'lake';
INSERT INTO leases SELECT 2, land(lots, 'sec. 14, lot 3.') FROM tables WHERE name = 'lake';
INSERT INTO leases SELECT 3, land(lots, 'sec. 14, lot 2.') FROM tables WHERE name = 'lake';
INSERT INTO leases SELECT 3, land(lots, 'sec. 14, lot 2.') FROM tables WHERE name = 'lake' ON CONFLICT DO NOTHING RETURNING id;
INSERT INTO leases VALUES (3, 'T. 2 N., R. 3 W., sec. 36.');
INSERT INTO leases VALUES (3, 'T. 2 N., R. 3 W., sec. 36.') ON CONFLICT DO NOTHING RETURNING id;
INSERT INTO leases SELECT 3, land(lots, 'sec. 36.') FROM tables WHERE name = 'undated lake';
INSERT INTO leases SELECT 3, land(lots, 'sec. 36.') - land(lots, 'sec. 36.') FROM tables WHERE name = 'dated';
INSERT INTO leases VALUES (3, 'T. 3 N., R. 3 W., sec. 14.');
SELECT id FROM leases ORDER BY id;

-- What is for the standard lots only. The parts of dated land are on its plat.
SELECT parts(land) FROM lands WHERE name = 'lake';
SELECT quarter_quarters(land) FROM lands WHERE name = 'lake';
SELECT acres(plat, land) FROM plats, lands WHERE plats.name = 'uneven' AND lands.name = 'lake';
SELECT area(plat, land) FROM plats, lands WHERE plats.name = 'uneven' AND lands.name = 'lake';
SELECT acres_or_null(plat, land) FROM plats, lands WHERE plats.name = 'uneven' ORDER BY lands.name;
SELECT svg(plat, land) FROM plats, lands WHERE plats.name = 'uneven' AND lands.name = 'lake';
SELECT part FROM lands, parts(land) WHERE name = 'dated';
SELECT quarter_quarter, part FROM lands, quarter_quarters(land) WHERE name = 'dated' AND quarter_quarter LIKE 'NE%';
SELECT name, position('class="lots"' IN svg(land)) > 0 AS drawn, substring(svg(land) FROM 'class="lots"[^>]* d="([^"]*)"') = '' AS without_lots,
       substring(svg(land) FROM '<desc>.*</desc>') AS description
FROM lands ORDER BY name;

-- Quarter-quarter sections by a table: a lot is one row, wherever it lies, and the lake is none.
SELECT cell.* FROM tables, quarter_quarters(lots, land(lots, 'sec. 14.')) AS cell WHERE name = 'lake' AND (cell.lot > 0 OR quarter_quarter LIKE '%NW');
SELECT section, lot, quarter_quarter, whole, part FROM tables, quarter_quarters(lots, land(lots, 'sec. 5, lot 1, N1/2NW1/4NE1/4; sec. 14, lot 3.')) WHERE name = 'lake';
-- All of the township: 34 times 640 acres, 600 and lot 1 of section 5, and 440 and the lots of section 14. The tables with
-- the standard lots have the acreage of one of 47.
SELECT name, count(*) AS cells, count(lot) AS lots, count(quarter_quarter) AS others, bool_and(whole) AS whole,
       union_of(part) = land(lots, 'secs. 1 thru 36.') AS all_of_it, sum(acres_or_null(lots, part)) AS acres
FROM tables, quarter_quarters(lots, land(lots, 'secs. 1 thru 36.')) GROUP BY name ORDER BY name;
SELECT count(*) AS cells, bool_and(by_table = without) AS same
FROM tables, land(:'heading', 'sec. 6, lot 7, NE1/4SE1/4; sec. 14, SW1/4, N1/2SE1/4NE1/4.') AS land,
    LATERAL (SELECT array_agg(cell) AS by_table FROM quarter_quarters(lots, land) AS cell) AS one,
    LATERAL (SELECT array_agg(cell) AS without FROM quarter_quarters(land) AS cell) AS other WHERE name IN ('dated', 'standard');
SELECT quarter_quarters(lots, land) FROM tables, lands WHERE tables.name = 'lake' AND lands.name = 'undated lake';

-- The parts that the text by a table names.
SELECT normal(lots, land), parts.* FROM tables, land(lots, 'sec. 14, lots 2 to 4, SW1/4, E1/2SE1/4; sec. 5, lot 1; sec. 13.') AS land, parts(lots, land) WHERE name = 'lake';
SELECT section, lot, part FROM tables, parts(lots, land(lots, 'sec. 14.')) WHERE name = 'lake';
SELECT count(*) AS lands, bool_and(parts = commas) AS as_many_as_written, bool_and(whole = land) AS together, bool_and(sum = acres(lots, land)) AS acres
FROM (
    SELECT land, lots, count(*) AS parts, length(regexp_replace(normal(lots, land), '[^,]', '', 'g')) - 2 AS commas, union_of(part) AS whole,
           sum(acres(lots, part)) AS sum
    FROM tables, made_up, parts(lots, land) WHERE name = 'lake' GROUP BY id, land, lots
) AS compared;
SELECT count(*) AS tables, bool_and(by_table = without) AS same
FROM tables, land(:'heading', 'secs. 1 and 14; sec. 6, lot 7, NE1/4SE1/4; sec. 15, SW1/4, N1/2SE1/4NE1/4; sec. 7, lots 1 to 4.') AS land,
    LATERAL (SELECT array_agg(part) AS by_table FROM parts(lots, land) AS part) AS one,
    LATERAL (SELECT array_agg(part) AS without FROM parts(land) AS part) AS other WHERE name IN ('dated', 'standard');
SELECT count(*) AS parts FROM tables, land(lots, 'sec. 14.') AS land, parts(lots, land - land) WHERE name = 'lake';
SELECT parts(lots, land) FROM tables, lands WHERE tables.name = 'dated' AND lands.name = 'lake';

-- Readings on the plat of a table: its lots are named, 38.50, 12.25, and 19.80 acres here, and 80 acres; or those of a
-- regular township, which has none in section 14, and four in section 5.
SELECT name, suggested.* FROM tables, suggest(lots, 'Sec 14: NE4') AS suggested ORDER BY name;
SELECT name, reading FROM tables, suggest(lots, 'N2NE4 Sec 5') ORDER BY name;
SELECT reading, acres, acres = acres(lots, reading) AS same, normal(lots, reading) FROM tables, suggest(lots, 'Sec 14: All less Lot 1') WHERE name = 'lake';
-- Lots that only this plat has, a lot that it lacks, a township that is not the table's, and no reading.
SELECT text, suggested.* FROM tables, (VALUES ('L4 Sec 14'), ('Lot 2, Sec 5'), ('N2 Sec 13-3N-3W'), ('the old mill'), (''), ('sec. 14, a portion of lot 2'))
    AS texts (text), suggest(lots, text) AS suggested WHERE name = 'lake';
SELECT reading, acres, assumes FROM tables, suggest(lots, 'sec. 14: blah NE4', ARRAY['blah']) WHERE name = 'lake';
SELECT reading, acres FROM tables, suggest(lots, 'Sec 14: NE4', ignore => NULL) WHERE name = 'lake';
SELECT count(*) AS rows FROM suggest(NULL::lots, 'sec. 14.');
SELECT count(*) AS rows FROM tables, suggest(lots, NULL, ARRAY['blah']);
SELECT count(*) AS rows FROM suggest(NULL::lots, 'sec. 14.', ARRAY['blah']);
SELECT suggest(lots, 'sec. 14.', ARRAY['Lot 3']) FROM tables WHERE name = 'lake';
-- A table with the standard lots has the readings of any plat of its township, but its own acres.
SELECT count(*) AS readings, bool_and(by_table.reading IS NOT DISTINCT FROM without.reading AND by_table.reason IS NOT DISTINCT FROM without.reason) AS same
FROM tables, (VALUES ('N2 Sec 5'), ('sec. 14: NE¼NE¼ SW¼SW¼'), ('the old mill'), ('sec. 14, a portion of lot 2'), ('Sec 14: NE4')) AS texts (text),
    LATERAL ROWS FROM (suggest(lots, text)) WITH ORDINALITY AS by_table (reading, acres, changes, assumes, reason, ordinal)
    JOIN LATERAL ROWS FROM (suggest(text)) WITH ORDINALITY AS without (reading, changes, assumes, reason, ordinal) USING (ordinal)
WHERE name IN ('dated', 'standard');
-- What is unread of a text that has no reading by a table; the last text has one by this table alone.
SELECT unread(lots, 'the old mill', NULL), unread(lots, 'the old blah mill', ARRAY['blah']) AS without, unread(lots, 'Sec 14: All less Lot 1', '{}') AS none,
       unread(NULL::lots, 'the old mill', NULL) IS NULL AS no_table, unread(lots, NULL, NULL) IS NULL AS no_text
FROM tables WHERE name = 'lake';

-- Drawings of the plat of a table: its lots, the lake, and the acreage that it returns.
CREATE FUNCTION found(svg text, path text) RETURNS text[] LANGUAGE sql IMMUTABLE AS
$$ SELECT xpath(path, xmlparse(DOCUMENT svg), ARRAY[ARRAY['s', 'http://www.w3.org/2000/svg']])::text[] $$;
CREATE TABLE drawn AS SELECT name, lots, land, svg(lots, land) AS svg, svg(lots, land, 14) AS sheet
FROM tables, land(lots, 'sec. 14, S1/2; sec. 5, lot 1.') AS land;
SELECT name, found(svg, '/s:svg/s:title/text()') AS title, found(svg, '/s:svg/s:desc/text()') AS description, found(svg, '/s:svg/s:text/text()') AS words,
       found(svg, '//s:path/@class') AS paths
FROM drawn ORDER BY name;
-- The numbers of sections, and the acres of those whose lots have a figure: 640.45 in section 5, and 581.65 in section 14.
SELECT name, cardinality(numbers) AS numbers, numbers[9:10] AS fifth, numbers[27:28] AS fourteenth
FROM drawn, found(svg, '/s:svg/s:g/s:text/text()') AS numbers ORDER BY name;
SELECT name, found(svg, '//s:path[@class="absent"]/@d') AS absent, found(svg, '//s:path[@class="land"]/@d') AS land FROM drawn ORDER BY name;
SELECT name, cardinality(found(svg, '//s:path[@class="lots"]/@d')) AS paths, length((found(svg, '//s:path[@class="lots"]/@d'))[1]) AS length FROM drawn ORDER BY name;
-- On the sheet of section 14: lot 1 in the northeast, 2 and 3 west of it, 4 as wide as one of them and twice as high, and
-- the lake in the northwest. The sides of lots are drawn once.
SELECT found(sheet, '/s:svg/s:g/s:text/text()') AS numbers, found(sheet, '//s:path[@class="absent"]/@d') AS absent, found(sheet, '//s:path[@class="lots"]/@d') AS lots,
       found(sheet, '/s:svg/s:text/text()') AS words
FROM drawn WHERE name = 'lake';
SELECT found(svg(lots, land(lots, 'sec. 5, lot 1.'), 5), '/s:svg/s:g/s:text/text()') AS numbers, found(svg(lots, land(lots, 'sec. 5, lot 1.'), 5), '/s:svg/s:text/text()') AS words
FROM tables WHERE name = 'standard';
-- The same lines as without a table, if its lots are the standard ones; and land of another plat.
SELECT name, found(svg, '//s:path/@d') = found(svg(land), '//s:path/@d') AS same FROM drawn ORDER BY name;
SELECT svg(lots, land) FROM tables, lands WHERE tables.name = 'dated' AND lands.name = 'lake';
SELECT svg(lots, land, 37) FROM drawn WHERE name = 'lake';
-- A lot in two parts has its number in the larger one, and no land is there in section 20.
SELECT found(svg(lots, land(lots, 'sec. 14, lot 9.'), 14), '/s:svg/s:g/s:text/@x') AS x, found(svg(lots, land(lots, 'sec. 14, lot 9.'), 14), '/s:svg/s:g/s:text/@y') AS y,
       found(svg(lots, land(lots, 'sec. 14, lot 9.')), '//s:path[@class="absent"]/@d') AS absent
FROM (SELECT E'section,lot,acres,land\nT,2,N,3,W\n14,9,45.01,"NE1/4NE1/4, SW1/4SW1/4SW1/4"\n14,,,"SE1/4SW1/4SW1/4, N1/2SW1/4SW1/4"\n20,,,"N1/2, S1/2"\n'::lots AS lots) AS parted;

-- Land and a table of another plat, or with other lots on the same one.
SELECT tables.name, lands.name AS land, acres_or_null(lots, land), number, at, message
FROM tables, lands, refusal(lots, land) AS refused WHERE tables.name <> lands.name ORDER BY tables.name, lands.name;
SELECT acres(lots, land) FROM tables, lands WHERE tables.name = 'dated' AND lands.name = 'lake';
SELECT normal(lots, land) FROM tables, lands WHERE tables.name = 'lake' AND lands.name = 'standard';
UPDATE tables SET lots = replace(:'lake', '14,4,71.10,"E1/2NW1/4"', '14,4,71.10,"E1/2NW1/4, N1/2SW1/4"')::lots WHERE name = 'lake';
SELECT acres_or_null(lots, land), number, at, message FROM tables JOIN lands USING (name), refusal(lots, land) WHERE name = 'lake';
SELECT acres(lots, land) FROM tables JOIN lands USING (name) WHERE name = 'lake';
SELECT normal(lots, land) FROM tables JOIN lands USING (name) WHERE name = 'lake';
