-- Land: its text, its operations, and its indexes. `plat.sql` has created the extension.
\set uneven `cat ../samples/b1.csv`
\set heading 'T. 2 N., R. 3 W.'

-- Any description with a heading is read, and the canonical one is written.
SELECT 'T. 2 N., R. 3 W., sec. 14, SE1/4, NE1/4, NW1/4.'::land;
SELECT E't2n r3w\n sections 15 thru 16; sec 5: lots 4 and 2, S½ of the NE¼'::land;
SELECT land(:'heading', 'sec. 14, S1/2.') = land(:'heading', 'sec. 14, SE1/4, SW1/4.') AS same,
       land(plat, 'sec. 14, S1/2.') = land(:'heading', 'sec. 14, S1/2.') AS on_plat
FROM plats WHERE name = 'uneven';
SELECT township('T. 99 S., R. 1 E., sec. 6, lot 7.'::land);
SELECT 'sec. 14.'::land;
SELECT ''::land;
SELECT 'T. 0 N., R. 3 W., sec. 14.'::land;
SELECT 'T. 2 N., R. 100 W., sec. 14.'::land;
SELECT 'T. 2 N., R. 3 W.'::land;
SELECT 'T. 2 N., R. 3 W., sec. 14, NE1/4 and N1/2.'::land;
SELECT 'T2NR3W sec. 14.'::land;
SELECT land('T. 2 N., R. 3 W., sec. 14', 'sec. 14.');
SELECT land('', 'sec. 14.');
SELECT land(:'heading', 'T. 2 N., R. 4 W., sec. 14.');
SELECT land_or_null(:'heading', 'sec. 5, N1/2.') IS NULL AS refused,
       land_or_null(:'heading', 'sec. 5, lot 1.') AS accepted;
SELECT land_or_null(plat, 'sec. 5, N1/2.') IS NULL AS refused, land_or_null(plat, 'T. 2 N., R. 4 W., sec. 14.') IS NULL,
       land_or_null(plat, 'sec. 5, lot 1.') AS accepted
FROM plats WHERE name = 'uneven';
SELECT number, at, message FROM refusal(:'heading', 'sec. 5, lot 5.');
SELECT number FROM refusal(:'heading', 'sec. 5, lot 4.');

-- Each spelling of a township, and texts that are none.
SELECT designation(spelling), land(spelling, 'sec. 14.') = land('T. 2 N., R. 3 W.', 'sec. 14.') AS the_same
FROM (VALUES ('T2N R3W'), ('2N-3W'), ('0020N 0030W'), ('Township Two North, Range Three West')) AS t(spelling);
SELECT designation('T. 0020 N., R. 0030 W.');
SELECT designation_or_null('T. 2 N., R. 3 W., sec. 14') IS NULL AS land_too, designation_or_null('2N') IS NULL AS half,
       designation_or_null('0022N 0030W') IS NULL AS half_township, designation_or_null('2N-3W');

-- A description with a heading of its own, and a township that is none: NULL, or a record, in place of an error.
SELECT id, given, land_or_null(given) AS land, refused.number, refused.at, refused.message
FROM (VALUES (1, 'T. 2 N., R. 3 W., sec. 14, N1/2.'), (2, 'T. 2 N., R. 3 W., sec. 5, N1/2.'), (3, 'sec. 14.'),
    (4, 'T. 2 N., R. 3 W., no land.'), (5, 'T. 0 N., R. 3 W., sec. 14.'), (6, 'T. 2 N., R. 3 W.'), (7, ''), (8, NULL))
    AS texts (id, given), refusal(given) AS refused ORDER BY id;
SELECT land_or_null('T. 2 N., R. 300 W.', 'sec. 14.') IS NULL AS impossible, land_or_null('', 'sec. 14.') IS NULL AS none,
       land_or_null('T. 2 N., R. 3 W., sec. 14', 'sec. 14.') IS NULL AS more;

-- Its acres are those of the description.
SELECT acres(plat, land(plat, description)) AS exact, acres(plat, description) AS the_same,
       acres(plat, land(plat, description), 'plat') AS by_plat, (area(plat, land(plat, description))).*
FROM plats, (VALUES ('sec. 7, lots 1 to 4.'), ('sec. 5, lot 1.'), ('sec. 14.')) AS described(description)
WHERE name = 'uneven';
SELECT acres(plat, 'T. 2 N., R. 4 W., sec. 14.'::land) FROM plats WHERE name = 'uneven';
SELECT acres_or_null(plat, 'T. 2 N., R. 4 W., sec. 14.'::land) AS elsewhere,
       acres_or_null(plat, land(plat, 'sec. 7, lots 1 to 4.')) AS exact,
       acres_or_null(plat, land(plat, 'sec. 7, lots 1 to 4.'), 'plat') AS by_plat
FROM plats WHERE name = 'uneven';
SELECT acres_or_null(plat, land(plat, 'sec. 14.'), 'neat') FROM plats WHERE name = 'uneven';

-- Union, intersection, and difference.
CREATE TABLE parts (name text PRIMARY KEY, land land);
INSERT INTO parts VALUES
    ('half', land(:'heading', 'sec. 14, N1/2.')), ('quarter', land(:'heading', 'sec. 14, NE1/4.')),
    ('other half', land(:'heading', 'sec. 14, E1/2.')), ('lots', land(:'heading', 'sec. 6, lots 1 to 7.')),
    ('empty', land(:'heading', 'sec. 14.') - land(:'heading', 'sec. 14.')),
    ('elsewhere', 'T. 2 N., R. 4 W., sec. 14, N1/2.');
SELECT a.land + b.land AS either, a.land * b.land AS both, a.land - b.land AS first, b.land - a.land AS second
FROM parts a, parts b WHERE a.name = 'half' AND b.name = 'other half';
SELECT name, land, isempty(land) FROM parts WHERE name = 'empty';
SELECT 't2n r3w no land'::land = land AS read_again FROM parts WHERE name = 'empty';
SELECT acres(plat, land) FROM parts, plats WHERE parts.name = 'empty' AND plats.name = 'uneven';
SELECT a.land + b.land FROM parts a, parts b WHERE a.name = 'half' AND b.name = 'elsewhere';

-- The parts that the text names: whole sections, lots, and other parts. Together they are the land.
SELECT section, lot, part FROM parts('T. 2 N., R. 3 W., sec. 6, lots 7 and 2, E1/2SW1/4; sec. 14; sec. 15, NE1/4, SW1/4.');
SELECT count(*) FROM parts AS lands, parts(land) WHERE name = 'empty';
SELECT section, lot FROM parts(NULL::land);
SELECT count(*) AS parts, count(lot) AS lots, union_of(part) = land('T. 1 S., R. 1 E.', 'secs. 1 thru 36.') AS whole
FROM parts('T. 1 S., R. 1 E., secs. 1 thru 36.');
SELECT count(*) AS parts, sum((part && smallest)::int) AS with_it
FROM (VALUES ('T. 2 N., R. 3 W., sec. 36, SW1/4SW1/4SW1/4SW1/4SW1/4.'::land)) AS smallest (smallest),
    parts('T. 2 N., R. 3 W., sec. 36, SW1/4SW1/4SW1/4SW1/4SW1/4, NE1/4NE1/4NE1/4NE1/4NE1/4, W1/2NW1/4.');

-- As sets of places. Empty land is contained in all land of its township, and shares a place with none.
SELECT a.name, b.name, a.land && b.land AS overlap, a.land @> b.land AS contains, a.land <@ b.land AS contained,
       a.land = b.land AS same
FROM parts a, parts b WHERE a.land && b.land OR a.land @> b.land OR a.land <@ b.land
ORDER BY a.name COLLATE "C", b.name COLLATE "C";

-- Parcels that adjoin: in a section, across section lines, also where the numbers of sections turn (6 and 7), and not
-- at a corner alone, across the township (6 and 1), or where they share land.
SELECT one, other, touches(land(:'heading', one), land(:'heading', other)) AS touch,
       touches(land(:'heading', other), land(:'heading', one)) AS turned
FROM (VALUES ('sec. 14, NE1/4.', 'sec. 14, NW1/4.'), ('sec. 14, NE1/4.', 'sec. 14, SW1/4.'), ('sec. 14, N1/2.', 'sec. 14, NE1/4.'),
    ('sec. 14, E1/2E1/2.', 'sec. 13, NW1/4NW1/4.'), ('sec. 14, S1/2.', 'sec. 23, N1/2N1/2.'), ('sec. 14, S1/2.', 'sec. 23, S1/2.'),
    ('sec. 6.', 'sec. 7.'), ('sec. 6.', 'sec. 1.'), ('sec. 7.', 'sec. 12.'), ('sec. 1, lot 1.', 'sec. 1, lot 2.'),
    ('sec. 14, NE1/4NE1/4NE1/4NE1/4NE1/4.', 'sec. 11, SE1/4SE1/4SE1/4SE1/4SE1/4.'), ('sec. 14.', 'sec. 22.'))
    AS pairs (one, other);
SELECT touches(land, land) AS itself, touches(land, land - land) AS with_none,
       touches(land, 'T. 3 N., R. 3 W., sec. 31.') IS NULL AS elsewhere
FROM parts WHERE name = 'half';

-- Each land of a table, and the pairs that overlap.
SELECT union_of(land) FROM parts WHERE name IN ('half', 'other half');
SELECT union_of(land) IS NULL AS nothing FROM parts WHERE name = 'no such part';
SELECT overlaps(name, land ORDER BY name COLLATE "C") FROM parts;
SELECT overlaps(length(name), land) FROM parts WHERE name IN ('lots', 'half');

SELECT overlaps(id, land) FROM (VALUES (1, land(:'heading', 'sec. 14.')), (2, land(:'heading', 'sec. 15.')),
    (3, land(:'heading', 'sec. 14, N1/2.'))) AS last(id, land);

-- Storage: 4 bytes for the length, 9, and for each section 1 to 129.
SELECT description, pg_column_size(land(:'heading', description)) AS bytes
FROM (VALUES ('sec. 14.'), ('sec. 14, NE1/4.'), ('sec. 5, lot 1.'), ('sec. 14, NE1/4NE1/4NE1/4.'), ('secs. 1 thru 36.'),
             ('sec. 14, NE1/4NE1/4NE1/4NE1/4.'), ('sec. 14, NE1/4NE1/4NE1/4NE1/4NE1/4.')) AS described(description);
SELECT land_send(land(:'heading', 'sec. 6, lot 7.'));

-- Order: by township, and then by section.
SELECT land FROM (VALUES ('T. 1 S., R. 1 E., sec. 1.'::land), ('T. 2 N., R. 1 E., sec. 36.'),
    ('T. 1 N., R. 9 W., sec. 1.'), ('T. 1 N., R. 1 E., sec. 2.'), ('T. 1 N., R. 1 E., secs. 1 and 36.'),
    ('T. 1 N., R. 1 E., secs. 1 and 2.')) AS lands(land)
ORDER BY land;

SELECT min(land), max(land) FROM (VALUES ('T. 1 S., R. 1 E., sec. 1.'::land), ('T. 1 N., R. 1 E., sec. 2.'),
    (NULL), ('T. 1 N., R. 1 E., secs. 1 and 2.')) AS lands(land);
SELECT min(land) IS NULL AS none FROM parts WHERE name = 'no such part';

-- Made-up lands of 20 townships: the index finds what a scan finds.
CREATE TABLE lands AS
SELECT n AS id, land(format('T. %s N., R. %s W.', 1 + n % 5, 1 + n / 5 % 4),
    format('sec. %s, %s1/4%s1/4; sec. %s, %s.', 8 + n % 10, (ARRAY['NE', 'NW', 'SW', 'SE'])[1 + n / 3 % 4],
        (ARRAY['NE', 'NW', 'SW', 'SE'])[1 + n / 7 % 4], 20 + n % 9,
        (ARRAY['N1/2', 'S1/2', 'NE1/4', 'SW1/4NW1/4', 'NE1/4SE1/4NE1/4', 'all'])[1 + n / 11 % 6])) AS land
FROM generate_series(1, 3000) AS n;
INSERT INTO lands SELECT 3001, land - land FROM lands WHERE id = 1;
CREATE TABLE chosen AS SELECT * FROM lands WHERE id % 50 = 1;
CREATE TABLE found (way text, operator text, id int, other int);
CREATE PROCEDURE find(way text) LANGUAGE sql AS $$
    INSERT INTO found SELECT find.way, '&&', a.id, b.id FROM chosen a JOIN lands b ON b.land && a.land;
    INSERT INTO found SELECT find.way, '@>', a.id, b.id FROM chosen a JOIN lands b ON b.land @> a.land;
    INSERT INTO found SELECT find.way, '<@', a.id, b.id FROM chosen a JOIN lands b ON b.land <@ a.land;
    INSERT INTO found SELECT find.way, '=', a.id, b.id FROM chosen a JOIN lands b ON b.land = a.land;
$$;
CALL find('scan');
CREATE INDEX lands_gist ON lands USING gist (land);
SET enable_seqscan = off;
SET enable_hashjoin = off;
SET enable_mergejoin = off;
-- The lines of a plan that name an index: servers differ in what they say of the others.
CREATE FUNCTION indexes_of(query text) RETURNS SETOF text LANGUAGE plpgsql AS $$
DECLARE
    line text;
BEGIN
    FOR line IN EXECUTE 'EXPLAIN (COSTS OFF) ' || query LOOP
        IF line LIKE '%Index%' THEN
            RETURN NEXT ltrim(line, ' ->');
        END IF;
    END LOOP;
END $$;
SELECT indexes_of('SELECT b.id FROM chosen a JOIN lands b ON b.land && a.land');
CALL find('sorted index');
-- The same index, built by inserting one land after another.
DROP INDEX lands_gist;
CREATE TABLE kept AS SELECT * FROM lands;
TRUNCATE lands;
CREATE INDEX lands_gist ON lands USING gist (land);
INSERT INTO lands SELECT * FROM kept ORDER BY id % 97, id;
CALL find('grown index');
DROP INDEX lands_gist;
CREATE INDEX lands_btree ON lands USING btree (land);
INSERT INTO found SELECT 'btree', '=', a.id, b.id FROM chosen a JOIN lands b ON b.land = a.land;
DROP INDEX lands_btree;
CREATE INDEX lands_hash ON lands USING hash (land);
INSERT INTO found SELECT 'hash', '=', a.id, b.id FROM chosen a JOIN lands b ON b.land = a.land;
DROP INDEX lands_hash;
RESET enable_seqscan;
RESET enable_hashjoin;
RESET enable_mergejoin;
SELECT operator, way, count(*) > 50 AS many, count(*) = min(scanned) AS as_many, bool_and(in_scan) AS same
FROM (
    SELECT *, (SELECT count(*) FROM found AS f WHERE f.way = 'scan' AND f.operator = found.operator) AS scanned,
           (operator, id, other) IN (SELECT operator, id, other FROM found AS f WHERE f.way = 'scan') AS in_scan
    FROM found
) AS compared
GROUP BY operator, way ORDER BY operator COLLATE "C", way COLLATE "C";

-- So many lands of a single township that no page of the index is shared with another one. Only empty land is
-- contained in a section in which there are none.
CREATE TABLE crowded AS
SELECT n AS id, land(:'heading', format('sec. %s, %s1/4%s1/4.', 8 + n % 10, (ARRAY['NE', 'NW', 'SW', 'SE'])[1 + n / 3 % 4],
    (ARRAY['NE', 'NW', 'SW', 'SE'])[1 + n / 7 % 4])) AS land
FROM generate_series(1, 2000) AS n;
INSERT INTO crowded SELECT 2001, land - land FROM crowded WHERE id = 1;
CREATE INDEX ON crowded USING gist (land);
SET enable_seqscan = off;
SELECT id FROM crowded WHERE land <@ land(:'heading', 'sec. 36.');
SELECT id FROM crowded WHERE land = land(:'heading', 'sec. 36.') - land(:'heading', 'sec. 36.');
RESET enable_seqscan;

-- What is in both and what is in the first alone are the first; their acres add up, and so do those of the
-- union.
SELECT count(*) > 1000 AS some, bool_and((a.land * b.land) + (a.land - b.land) = a.land) AS whole,
       bool_and(a.land && b.land = NOT isempty(a.land * b.land)) AS shared,
       bool_and(a.land @> b.land = isempty(b.land - a.land)) AS contained,
       bool_and((a.land + b.land) - b.land = a.land - b.land) AS remaining
FROM lands a JOIN lands b ON township(a.land) = township(b.land) WHERE a.id < 200;
SELECT count(*) > 100 AS some,
       bool_and(acres(plat, a.land + b.land) + acres(plat, a.land * b.land)
                = acres(plat, a.land) + acres(plat, b.land)) AS sum
FROM plats, lands a JOIN lands b ON township(a.land) = township(b.land)
WHERE name = 'uneven' AND township(a.land) = 'T. 2 N., R. 3 W.' AND a.id < 200;

-- No two leases share land.
CREATE TABLE leases (id int, land land, EXCLUDE USING gist (land WITH &&));
INSERT INTO leases VALUES (1, 'T. 2 N., R. 3 W., sec. 14, N1/2.'), (2, 'T. 2 N., R. 3 W., sec. 14, S1/2.');
INSERT INTO leases VALUES (3, 'T. 2 N., R. 4 W., sec. 14, N1/2.');
INSERT INTO leases VALUES (4, 'T. 2 N., R. 3 W., sec. 14, NE1/4NE1/4NE1/4NE1/4NE1/4.');
-- The same without an error: no row is inserted.
INSERT INTO leases VALUES (4, 'T. 2 N., R. 3 W., sec. 14, NE1/4NE1/4NE1/4NE1/4NE1/4.') ON CONFLICT DO NOTHING RETURNING id;
INSERT INTO leases VALUES (5, 'T. 2 N., R. 3 W., sec. 15, NE1/4.') ON CONFLICT DO NOTHING RETURNING id;
