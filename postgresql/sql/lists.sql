-- Lists of tracts (CSV), on plats and by lot tables. `plat.sql` has created the extension and the table of plats.
CREATE SCHEMA lists;
SET search_path = lists, public;
\set uneven `cat ../samples/b1.csv`
CREATE TABLE tables (name text PRIMARY KEY, lots lots NOT NULL);
INSERT INTO tables VALUES
    ('lake', E'section,lot,acres,land\nT,2,N,3,W,1912-03-04\n5,1,40.45,NE1/4NE1/4\n14,1,38.50,NE1/4NE1/4\n'
        '14,2,12.25,N1/2NW1/4NE1/4\n14,3,19.80,S1/2NW1/4NE1/4\n14,4,71.10,E1/2NW1/4\n14,,,NW1/4NW1/4\n'),
    ('standard', E'section,lot,acres\nT,2,N,3,W\n5,1,40.45\n');

-- A list of rows. What is missing is empty in it, so that it is refused there.
CREATE TABLE tracts (id int PRIMARY KEY, name text, description text);
INSERT INTO tracts VALUES
    (1, 'A', 'sec. 14, lot 1.'), (2, 'B', 'sec. 14, lots 1 and 2.'), (3, 'C', 'sec. 14, NE1/4.'), (4, 'A', 'sec. 36.'),
    (5, NULL, 'sec. 36.'), (6, 'D', 'sec. 14, lots 2 to 4.'), (7, 'E', NULL);
SELECT replace(tract_list(name, description ORDER BY id), E'\n', ' ') AS list FROM tracts WHERE id IN (1, 5, 7);
SELECT replace(tract_list('a"b', 'c"d'), E'\n', ' ') AS quoted;
SELECT replace(tract_list(name, description), E'\n', ' ') AS none FROM tracts WHERE id = 0;
CREATE VIEW listed AS SELECT tract_list(name, description ORDER BY id) AS list FROM tracts;

-- By the lake: 38.50; 38.50 + 12.25; a quarter that includes lots; a name a second time; no name; 12.25 + 19.80 + 71.10
-- acres; no description. Lot 1 is in two tracts, and so is lot 2.
SELECT answer.* FROM listed, tables, report(lots, list) AS answer WHERE tables.name = 'lake';
SELECT shared.* FROM listed, tables, overlaps(lots, list) AS shared WHERE tables.name = 'lake';

-- A table that lacks lot 2 of section 5 gives no acres of it. By the field notes, its 40.55 acres are in A and B, and the
-- 40.45 acres of lot 1 in A and C.
\set list 'name,description\nA,"sec. 5, lots 1 and 2."\nB,"sec. 5, lot 2."\nC,"sec. 5, lot 1."\n'
SELECT answer.* FROM tables, report(lots, :'list') AS answer WHERE tables.name = 'standard';
SELECT shared.* FROM tables, overlaps(lots, :'list') AS shared WHERE tables.name = 'standard';
SELECT answer.* FROM plats, report(plat, :'list') AS answer WHERE plats.name = 'uneven';
SELECT shared.* FROM plats, overlaps(plat, :'list') AS shared WHERE plats.name = 'uneven';
-- A literal is field notes.
SELECT string_agg(acres::text, ' ' ORDER BY record) AS acres FROM report(:'uneven', :'list');
SELECT string_agg(acres::text, ' ' ORDER BY second) AS acres FROM overlaps(:'uneven', :'list');
SELECT overlaps(id, land(lots, description)) AS pairs FROM tracts, tables WHERE tables.name = 'lake' AND id IN (1, 2, 6);

-- The largest list: each of its tracts overlaps each other one.
CREATE VIEW largest AS SELECT tract_list(number::text, 'sec. 13.') AS list FROM generate_series(1, 1000) AS number;
SELECT count(*) AS tracts, sum(acres) FROM largest, tables, report(lots, list) WHERE tables.name = 'lake';
SELECT count(*) AS pairs, min(acres), max(acres) FROM largest, tables, overlaps(lots, list) WHERE tables.name = 'lake';
SELECT count(*) AS pairs, min(acres), max(acres) FROM largest, plats, overlaps(plat, list) WHERE plats.name = 'even';

-- Lists that are refused as a whole, and none.
SELECT report(lots, list || '1001,sec. 37') FROM largest, tables WHERE tables.name = 'lake';
SELECT overlaps(plat, list || '1001,sec. 37') FROM largest, plats WHERE plats.name = 'even';
\set VERBOSITY sqlstate
SELECT report(lots, 'Name,description') FROM tables WHERE tables.name = 'lake';
SELECT overlaps(lots, '') FROM tables WHERE tables.name = 'lake';
SELECT report(plat, repeat(' ', 1048577)) FROM plats WHERE plats.name = 'even';
SELECT overlaps(plat, 'Name,description') FROM plats WHERE plats.name = 'even';
\set VERBOSITY default
SELECT count(*) AS rows FROM report(NULL::lots, 'name,description');
SELECT count(*) AS rows FROM overlaps(NULL::plat, 'name,description');
SELECT count(*) AS rows FROM tables, report(lots, E'name,description\n') WHERE tables.name = 'lake';

-- What is unclear in a description, by a table, by a plat, and by field notes.
SELECT line_number, column_number, message LIKE 'NE1/4 SE1/4 is read as one part, the NE1/4 of the SE1/4%' AS one_part, excerpt
FROM tables, notes(lots, 'sec. 13, NE1/4 SE1/4.') WHERE tables.name = 'lake';
SELECT notes(lots, 'sec. 14, lot 1.') IS NULL AS clear, notes(lots, 'sec. 14, NE1/4 SE1/4, NE1/4.') IS NULL AS refused,
       notes(lots, NULL) IS NULL AS none
FROM tables WHERE tables.name = 'lake';
SELECT notes(lots, 'sec. 14, NE1/4 SE1/4; sec. 5, lot 2.') IS NULL AS lacking FROM tables WHERE tables.name = 'standard';
SELECT column_number FROM notes(:'uneven', 'sec. 14, NE1/4 SE1/4.');
