-- Plats, and the answers on them. The field notes are those of the samples: b0 is a township in which every
-- section is one square mile; in b1 some closing half miles are longer or shorter.
CREATE EXTENSION township;
SELECT township_version() ~ '^[0-9]+[.][0-9]+[.][0-9]+$' AS version;

\set even `cat ../samples/b0.csv`
\set uneven `cat ../samples/b1.csv`
CREATE TABLE plats (name text PRIMARY KEY, plat plat NOT NULL);
INSERT INTO plats VALUES ('even', :'even'), ('uneven', :'uneven');
SELECT name, township(plat), pg_column_size(plat) FROM plats ORDER BY name;

-- The text of a plat makes it again. Its first line says that the lengths in it are not those that were measured: of a
-- closing line, 39.80 and 79.90, only the closing quarter mile is kept, which is that of 40.00 and 80.10. So nobody takes
-- it for field notes.
SELECT name, plat::text::plat = plat AS again FROM plats ORDER BY name;
SELECT split_part(plat::text, E'\n', 1) AS first, split_part(plat::text, E'\n', 2) AS heading,
       split_part(plat::text, E'\n', 3) AS township
FROM plats WHERE name = 'uneven';
SELECT split_part(measured::plat::text, 'N,2,3,', 2) ~ '^40[.]00,80[.]10' AS closing, measured::plat::text::plat = measured::plat AS again
FROM regexp_replace(:'even', 'N,2,3,40[.]00,80[.]00', 'N,2,3,39.80,79.90') AS measured;
SELECT number, at, message FROM plats, refusal(plat::text) WHERE name = 'uneven';

-- A lot of 40.45 acres; with its neighbor of 40.55 and a half of a quarter of 80 acres, 161. By the printed
-- plat, lots count as rounded: 39.18 + 39.13 + 39.08 + 39.03 acres are 156.42, while the exact sum is 156.40.
SELECT acres(plat, 'sec. 5, lot 1.') AS lot,
       acres(plat, 'sec. 5, lots 1 and 2, S1/2NE1/4.') AS lots_and_half,
       acres(plat, 'sec. 7, lots 1 to 4, inclusive.') AS exact,
       acres(plat, 'sec. 7, lots 1 to 4, inclusive.', 'plat') AS by_plat,
       acres(plat, 'secs. 1 thru 36.') AS township
FROM plats WHERE name = 'uneven';
SELECT acres(plat, 'sec. 14.') AS section, acres(plat, 'sec. 14, NE1/4NE1/4NE1/4NE1/4NE1/4.') AS smallest,
       acres(plat, 'secs. 1 thru 36.') AS township
FROM plats WHERE name = 'even';

-- 809/20 of an acre are 40.45.
SELECT (area(plat, 'sec. 5, lot 1.')).*, (area(plat, 'sec. 14, NE1/4NE1/4NE1/4NE1/4NE1/4.')).numerator AS five,
       (area(plat, 'sec. 14, NE1/4NE1/4NE1/4NE1/4NE1/4.')).denominator AS eighths
FROM plats WHERE name = 'uneven';
SELECT round(numerator / denominator, 2) FROM plats, area(plat, 'sec. 7, lots 1 to 4.') WHERE name = 'uneven';

-- The canonical description is on one line.
SELECT normal(plat, E'sec. 15; sec. 14, SE1/4, NE1/4,\nNW1/4.') FROM plats WHERE name = 'even';
SELECT normal(plat, normal(plat, 'sec. 15; sec. 14, SE1/4.')) FROM plats WHERE name = 'even';

-- Refusals are errors. The class of their SQLSTATE is TW.
DO $$
DECLARE
    state text; message text; detail text; hint text;
BEGIN
    PERFORM acres(plat, 'sec. 14, NE1/4 and N1/2.') FROM plats WHERE name = 'even';
EXCEPTION WHEN SQLSTATE 'TW067' THEN
    GET STACKED DIAGNOSTICS state = RETURNED_SQLSTATE, message = MESSAGE_TEXT, detail = PG_EXCEPTION_DETAIL,
        hint = PG_EXCEPTION_HINT;
    RAISE INFO USING MESSAGE = state || ' ' || message, DETAIL = detail, HINT = hint;
END $$;
SELECT acres(plat, 'sec. 14, NE1/4 and N1/2.') FROM plats WHERE name = 'even';
SELECT acres(plat, 'sec. 5, N1/2.') FROM plats WHERE name = 'even';
SELECT acres(plat, '') FROM plats WHERE name = 'even';
SELECT acres(plat, repeat(' ', 65537)) FROM plats WHERE name = 'even';
SELECT acres(plat, 'secs. 14 & 15') FROM plats WHERE name = 'even';
SELECT acres(plat, 'T. 2 N., R. 3 E., sec. 14.') FROM plats WHERE name = 'even';
SELECT acres(plat, 'sec. 14.', 'neat') FROM plats WHERE name = 'even';
SELECT 'line,between,and,quarters,corner'::plat;
SELECT ''::plat;
SELECT replace(:'even', E'\nW,6,7,40.00,80.00', '')::plat;

-- Refusals and notes as records, where an error would end the statement.
CREATE TABLE descriptions (id int, description text);
INSERT INTO descriptions VALUES (1, 'sec. 5, lot 1.'), (2, 'sec. 5, lot 5.'), (3, 'sec. 36.'), (4, NULL),
    (5, 'sec. 14, NE1/4 and N1/2.'), (6, 'sec. 14, NE1/4 SE1/4.');
SELECT id, acres_or_null(plat, description) AS acres, refused.number, refused.at
FROM descriptions, plats, refusal(plat, description) AS refused WHERE name = 'uneven' ORDER BY id;
\x on
SELECT r.* FROM plats, refusal(plat, 'sec. 14, NE1/4 and N1/2.') AS r WHERE name = 'even';
SELECT r.* FROM plats, refusal(plat, E'sec. 14,\n') AS r WHERE name = 'even';
SELECT n.* FROM plats, notes(plat, 'sec. 14, NE1/4 SE1/4.') AS n WHERE name = 'even';
SELECT r.* FROM refusal(E'line,between,and,quarter,corner\nT,0,N,3,W\n') AS r;
SELECT r.* FROM refusal(replace(:'even', E'\nW,6,7,40.00,80.00', '')) AS r;
\x off
SELECT notes(plat, 'sec. 14, NE1/4.') IS NULL AS clear, refusal(plat, 'sec. 14.') IS NULL AS accepted
FROM plats WHERE name = 'even';
SELECT refusal(:'even') IS NULL AS accepted;

-- They serve as a constraint.
CREATE TABLE tracts (
    plat plat, description text,
    CONSTRAINT described CHECK (acres_or_null(plat, description) IS NOT NULL)
);
INSERT INTO tracts SELECT plat, 'sec. 5, lot 1.' FROM plats;
INSERT INTO tracts (description) VALUES ('sec. 5, lot 1.');

-- Order and hash.
SELECT a.name, b.name, a.plat < b.plat AS less, a.plat = b.plat AS same, a.plat > b.plat AS more
FROM plats a, plats b ORDER BY a.plat, b.plat;
SELECT count(DISTINCT plat) FROM plats;
SELECT count(*) FROM plats a JOIN plats b USING (plat);
SET enable_hashjoin = off;
SELECT count(*) FROM plats a JOIN plats b USING (plat);
RESET enable_hashjoin;
CREATE UNIQUE INDEX ON plats (plat);
INSERT INTO plats VALUES ('again', :'even') ON CONFLICT (plat) DO NOTHING;
SELECT count(*) FROM plats;

-- The binary form.
SELECT length(plat_send(plat)) AS bytes, encode(substr(plat_send(plat), 1, 9), 'hex') AS first
FROM plats WHERE name = 'even';
