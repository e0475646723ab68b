-- A database to dump: each type, its largest and its smallest values, indexes, and constraints.
CREATE TABLE plats (id int PRIMARY KEY, plat plat NOT NULL UNIQUE);
INSERT INTO plats VALUES (1, :'notes');
CREATE TABLE lot_tables (id int PRIMARY KEY, lots lots NOT NULL);
INSERT INTO lot_tables VALUES (1, E'section,lot,acres\nT,99,S,99,E\n'),
    (2, E'section,lot,acres\nT,2,N,3,W\n6,7,0.01\n31,4,999.99\n'),
    (3, E'section,lot,acres,land\nT,2,N,3,W,1912-03-04\n5,1,40.45,NE1/4NE1/4\n14,1,38.50,NE1/4NE1/4\n14,2,12.25,N1/2NW1/4NE1/4\n'
        '14,3,19.80,S1/2NW1/4NE1/4\n14,4,71.10,E1/2NW1/4\n14,,,NW1/4NW1/4\n');
CREATE TABLE lands (id int PRIMARY KEY, land land NOT NULL, CHECK (township(land) <> 'T. 98 N., R. 98 W.'));
CREATE INDEX ON lands USING gist (land);
CREATE INDEX ON lands USING btree (land);
CREATE INDEX ON lands USING hash (land);
INSERT INTO lands SELECT n, land(made_up_township(n, 50), made_up_description(n)) FROM generate_series(1, 500) AS n;
INSERT INTO lands VALUES
    (1001, 'T. 99 S., R. 99 E., secs. 1 thru 36.'),
    (1002, 'T. 1 N., R. 1 W., sec. 36, NE1/4NE1/4NE1/4NE1/4NE1/4.'),
    (1003, land('T. 1 N., R. 1 W.', 'sec. 14.') - land('T. 1 N., R. 1 W.', 'sec. 14.')),
    (1006, 'plat 1912-03-04: T. 5 S., R. 6 E., sec. 5, lot 1.'),
    (1007, 'plat 1912-03-04 with its lots: T. 6 S., R. 6 E., sec. 6, N1/2; sec. 14, N1/2NW1/4NE1/4.'),
    (1008, 'plat with its lots: T. 7 S., R. 6 E., secs. 1 thru 36.'),
    (1009, 'plat 9999-12-31 with its lots: T. 8 S., R. 6 E., no land.');
-- Every second of the smallest parts of section 14, and of all sections without lots: their canonical texts
-- are about 14,000 bytes long, and more than a description can have. On a plat with lots of its own, that of all
-- sections is even longer.
CREATE FUNCTION checkers(section int) RETURNS text LANGUAGE sql IMMUTABLE AS $$
    WITH quarters (quarter) AS (SELECT unnest(ARRAY['NE', 'NW', 'SW', 'SE']))
    SELECT format('sec. %s, %s', section, string_agg(
        format('%s1/4%s1/4%s1/4%s1/4%s1/4', half, a.quarter, b.quarter, c.quarter, d.quarter), ', '))
    FROM (VALUES ('NE'), ('SW')) AS halves (half), quarters a, quarters b, quarters c, quarters d
$$;
INSERT INTO lands VALUES (1004, land('T. 3 S., R. 4 E.', checkers(14)));
INSERT INTO lands SELECT 1005, union_of(land('T. 3 S., R. 4 E.', checkers(section))) FROM generate_series(1, 36) AS section
WHERE section NOT IN (1, 2, 3, 4, 5, 6, 7, 18, 19, 30, 31);
INSERT INTO lands SELECT 1010, ('plat 1912-03-04 with its lots: T. 9 S., R. 6 E., ' || string_agg(checkers(section), '; '))::land
FROM generate_series(1, 36) AS section;
CREATE TABLE leases (id int PRIMARY KEY, land land, EXCLUDE USING gist (land WITH &&));
INSERT INTO leases VALUES (1, 'T. 2 N., R. 3 W., sec. 14.'), (2, 'T. 2 N., R. 3 W., sec. 15.');
