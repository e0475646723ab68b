-- Lot tables, and land by them. `plat.sql` has created the extension.
\set heading 'T. 2 N., R. 3 W.'
CREATE TABLE lot_tables (name text PRIMARY KEY, lots lots);
INSERT INTO lot_tables VALUES
    ('some', E'section,lot,acres\nT,2,N,3,W\n31,4,999.99\n5,1,40.45\n5,2,40.57\n6,7,0.01\n'),
    ('none', E'section,lot,acres\nT,2,N,3,W\n');
-- The lots are written in the order of their sections.
SELECT name, township(lots), replace(lots::text, E'\n', ' ') AS text, lots::text::lots = lots AS again
FROM lot_tables ORDER BY name;

-- 40.45 + 40.57 + 80 acres; 999.99 + 0.01 + 640.
SELECT acres(lots, 'sec. 5, lots 1 and 2, S1/2NE1/4.'), acres(lots, 'sec. 31, lot 4; sec. 6, lot 7; sec. 14.'),
       (area(lots, 'sec. 5, lot 2.')).*, acres(lots, land(:'heading', 'sec. 5, lots 1 and 2.')) AS of_land,
       (area(lots, land(:'heading', 'sec. 5, lot 2.'))).numerator
FROM lot_tables WHERE name = 'some';
SELECT acres(lots, 'sec. 14, NE1/4NE1/4NE1/4NE1/4NE1/4.') FROM lot_tables WHERE name = 'none';
SELECT acres(lots, 'sec. 5, lots 1 and 3.') FROM lot_tables WHERE name = 'some';
SELECT acres(lots, land(:'heading', 'sec. 5, lots 1 and 3.')) FROM lot_tables WHERE name = 'some';
SELECT acres(lots, 'sec. 5, N1/2.') FROM lot_tables WHERE name = 'some';
SELECT acres(lots, 'T. 2 N., R. 4 W., sec. 14.'::land) FROM lot_tables WHERE name = 'some';
SELECT name, acres_or_null(lots, 'sec. 5, lot 1.') FROM lot_tables ORDER BY name;

-- Why a table gives no acreage, as a record. A table of another township has a number, but no place.
SELECT described.description, refused.number, refused.at, refused.column_number, refused.message
FROM lot_tables, (VALUES ('sec. 5, lots 1 and 2.'), ('sec. 5, lots 1 and 3.'), ('sec. 31, lots 3 and 4; sec. 5, lot 3.'),
    ('sec. 5, N1/2.'), ('T. 3 N., R. 3 W., sec. 14.'), ('')) AS described (description),
    refusal(lots, described.description) AS refused
WHERE name = 'some';
SELECT land, acres_or_null(lots, land), refused.number, refused.at, refused.line_number, refused.message, refused.help
FROM lot_tables, (VALUES (land(:'heading', 'sec. 5, lot 1.')), (land(:'heading', 'sec. 5, lots 1 and 3.')),
    ('T. 3 N., R. 3 W., sec. 14.')) AS lands (land), refusal(lots, land) AS refused
WHERE name = 'some';
SELECT refusal(lots, NULL::text) IS NULL AS description, refusal(lots, NULL::land) IS NULL AS land,
       acres_or_null(lots, NULL::land) IS NULL AS acres
FROM lot_tables WHERE name = 'some';

-- Lot tables as spreadsheets save them.
SELECT lots::text = E'section,lot,acres\nT,2,N,3,W\n5,1,40.50\n' AS read
FROM (VALUES (E'section,lot,acres,,\nT,2,N,3,W\n,,,,\n5,1,40.5,,\n'::lots), (E'section;lot;acres\nT;2;N;3;W\n5;1;40.5\n')) AS saved (lots);

-- Refusals of lot tables.
SELECT repeat(' ', 65537)::lots;
SELECT ''::lots;
SELECT E'section,lot,area\n'::lots;
SELECT E'section,lot,acres\nT,2,N,3\n'::lots;
SELECT E'section,lot,acres\nT,2,N,0,W\n'::lots;
SELECT E'section,lot,acres\nT,2,N,3,W\n5,5,40.00\n'::lots;
SELECT E'section,lot,acres\nT,2,N,3,W\n5,1,40.455\n'::lots;
SELECT E'section,lot,acres\nT,2,N,3,W\n5,1,40.00\n5,1,40.00\n'::lots;
SELECT a.name, b.name, a.lots = b.lots AS same, a.lots <> b.lots AS different
FROM lot_tables a, lot_tables b ORDER BY a.name, b.name;

-- Order and hash.
INSERT INTO lot_tables VALUES ('again', E'section,lot,acres\nT,2,N,3,W\n5,1,40.45\n5,2,40.57\n6,7,0.01\n31,4,999.99\n'),
    ('more', E'section,lot,acres\nT,2,N,3,W\n5,1,40.46\n'), ('elsewhere', E'section,lot,acres\nT,1,N,3,W\n5,1,40.45\n');
SELECT name FROM lot_tables ORDER BY lots, name COLLATE "C";
SELECT count(*) AS names, count(DISTINCT lots) AS tables FROM lot_tables;
SELECT string_agg(name, ' ' ORDER BY name COLLATE "C") AS names FROM lot_tables GROUP BY lots ORDER BY lots;
CREATE INDEX lot_tables_hash ON lot_tables USING hash (lots);
CREATE UNIQUE INDEX lot_tables_btree ON lot_tables (lots) WHERE name <> 'again';
SET enable_seqscan = off;
SELECT count(*) AS same FROM lot_tables WHERE lots = E'section,lot,acres\nT,2,N,3,W\n5,1,40.46\n';
RESET enable_seqscan;
INSERT INTO lot_tables VALUES ('third', E'section,lot,acres\nT,2,N,3,W\n5,1,40.46\n');

-- Lot tables that say where their lots lie: a lake covers the northwest quarter-quarter of section 14, two lots share
-- another one, and lot 4 is two of them. The record of lot 5 of section 20 has two parts, which are written in order.
CREATE TABLE lakes (name text PRIMARY KEY, lots lots NOT NULL);
INSERT INTO lakes VALUES
    ('lake', E'section,lot,acres,land\nT,2,N,3,W,1912-03-04\n14,1,38.50,NE1/4NE1/4\n5,1,40.45,NE1/4NE1/4\n'
        '14,2,12.25,N1/2NW1/4NE1/4\n14,3,19.80,S1/2NW1/4NE1/4\n14,4,71.10,E1/2NW1/4\n14,,,NW1/4NW1/4\n'
        '20,5,99.99,"SE1/4SE1/4 and NE1/4 of the NE1/4"\n20,,,W1/2\n'),
    ('none', E'section,lot,acres,land\nT,2,N,3,W\n36,,,"N1/2, S1/2"\n'),
    ('dated', E'section,lot,acres\nT,2,N,3,W,1912-03-04\n5,1,40.45\n');
SELECT name, lots::text AS text, lots::text::lots = lots AS again, plat_date(lots), has_own_lots(lots)
FROM lakes ORDER BY name COLLATE "C";
-- 38.50 + 12.25 + 19.80; the four lots, and 640 - 160 - 40 acres; 99.99 + 640 - 80 - 320.
SELECT acres(lots, 'sec. 14, lots 1 to 3.'), acres(lots, 'sec. 14.'), acres(lots, 'sec. 20, all.'),
       acres_or_null(lots, 'sec. 14, lot 5.') IS NULL AS lacking, (area(lots, 'sec. 14, lot 2.')).*
FROM lakes WHERE name = 'lake';
SELECT acres(lots, 'sec. 14, NE1/4.') FROM lakes WHERE name = 'lake';
SELECT acres(lots, 'sec. 14, NW1/4NW1/4.') FROM lakes WHERE name = 'lake';
SELECT acres(lots, 'sec. 36.') FROM lakes WHERE name = 'none';
SELECT described.description, refused.number, refused.at, refused.message, refused.help
FROM lakes, (VALUES ('sec. 14, lot 5.'), ('sec. 14, N1/2NE1/4NE1/4.'), ('sec. 14, W1/2NW1/4.'), ('sec. 13, NE1/4.'))
    AS described (description), refusal(lots, described.description) AS refused WHERE name = 'lake';

-- Refusals of such tables.
SELECT E'section,lot,acres,land\nT,2,N,3,W,1913-02-29\n'::lots;
SELECT E'section,lot,acres,land\nT,2,N,3,W\n14,1,38.50,NENE\n'::lots;
SELECT E'section,lot,acres,land\nT,2,N,3,W\n14,1,0.15,N1/2N1/2N1/2N1/2N1/2N1/2\n'::lots;
SELECT E'section,lot,acres,land\nT,2,N,3,W\n14,1,38.50,NE1/4\n14,,,N1/2\n'::lots;
SELECT E'section,lot,acres,land\nT,2,N,3,W\n14,1,38.50,N1/2NE1/4NE1/4\n'::lots;
-- In each of 8 sections, the rows of places belong to two lots in turn, in parts that are a whole row. The text of a
-- table has no part wider than two places and one place high.
SELECT (E'section,lot,acres,land\nT,2,N,3,W\n' || string_agg(record, '' ORDER BY record))::lots
FROM (SELECT format(E'%s,%s,320.00,"%s"\n', section, 1 + number % 2, string_agg(part, ', ')) AS record
      FROM generate_series(1, 8) AS section, (SELECT number, string_agg(CASE WHEN number >> bit & 1 = 1 THEN 'N1/2' ELSE 'S1/2' END, '')
          AS part FROM generate_series(0, 31) AS number, generate_series(0, 4) AS bit GROUP BY number) AS rows
      GROUP BY section, 1 + number % 2) AS records;

-- The same table in other words, and tables that differ.
INSERT INTO lakes SELECT 'again', replace(lots::text, 'E1/2NW1/4', '"NE1/4NW1/4, SE¼NW¼"')::lots FROM lakes WHERE name = 'lake';
INSERT INTO lakes SELECT 'later', replace(lots::text, '1912', '1913')::lots FROM lakes WHERE name = 'lake';
INSERT INTO lakes SELECT 'larger', replace(lots::text, '14,,,NW1/4NW1/4', '14,,,W1/2NW1/4')::lots FROM lakes WHERE name = 'lake';
SELECT string_agg(name, ' ' ORDER BY name COLLATE "C") AS names FROM lakes GROUP BY lots ORDER BY lots;
SELECT a.name, b.name FROM lakes a JOIN lakes b ON a.lots < b.lots ORDER BY a.name COLLATE "C", b.name COLLATE "C";
SET enable_sort = off;
SELECT count(*) AS tables FROM (SELECT lots FROM lakes GROUP BY lots) AS grouped;
RESET enable_sort;
SELECT name, pg_column_size(lots) AS bytes FROM lakes ORDER BY name COLLATE "C";

-- The binary form: a version, and what is stored.
SELECT name, lots_send(lots) FROM lakes WHERE name IN ('none', 'dated') ORDER BY name COLLATE "C";
