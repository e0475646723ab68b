-- Texts with the land of several townships: the land in each, its exact total, and its overlaps. `plat.sql` has created
-- the extension.
\set uneven `cat ../samples/b1.csv`

SELECT lands('T. 3 N., R. 3 W., sec. 31, lot 1; T. 2 N., R. 3 W., sec. 5, lots 1 and 2; T3N R3W sec. 32, S1/2.');
SELECT land FROM lands('T2N R3W sec. 14, N1/2') AS land;
SELECT lands('T. 0020 N., R. 3 W., sec. 14');

-- Refusals.
SELECT lands('sec. 5; T. 2 N., R. 3 W., sec. 6.');
SELECT lands('T2N R3W sec. 14; T3N R3W sec. 37');
SELECT lands('T2N R3W sec. 14, T3N R3W sec. 31');
SELECT lands('T2N R3W sec. 14; T3N sec. 31');
SELECT lands('T2N R3W sec. 14; T100N R3W sec. 31');
SELECT lands('2N-3W sec. 14');
SELECT lands('sec. 14');
SELECT lands('');
SELECT lands('T2N R3W sec. 14; T3N R3W sec. 31; T2N R3W sec. 14, NE1/4');
SELECT lands(rpad('T2N R3W sec. 14', 1048577));
SELECT count(*) FROM (SELECT string_agg('T' || number || 'N R3W sec. 14', '; ') AS text FROM generate_series(1, 99) AS number)
    AS long, lands(text);
SELECT lands_or_none('T2N R3W sec. 14; T3N R3W sec. 31') AS land;
SELECT lands_or_none('T2N R3W sec. 14; T3N R3W sec. 37') AS land;
SELECT lands(NULL), lands_or_none(NULL);
SELECT * FROM lands_refusal('T2N R3W sec. 14; T3N R3W sec. 37');
SELECT number, at, message FROM lands_refusal('sec. 5; T. 2 N., R. 3 W., sec. 6.');
SELECT number, at, message FROM lands_refusal('T2N R3W sec. 14; T2N R3W sec. 14, NE1/4');
SELECT number, at, message, help FROM lands_refusal('T2N R3W sec. 14; T3N sec. 31');
SELECT lands_refusal('T2N R3W sec. 14; T3N R3W sec. 31') IS NULL AS accepted;

-- Totals: 40.45 and 40.55 acres on the plat, and 38.97, 39.01, and 320 by the lot table.
CREATE TABLE located_plats (plat plat NOT NULL);
INSERT INTO located_plats VALUES (:'uneven'), (replace(:'uneven', 'T,2,N,3,W', 'T,4,N,3,W')::plat);
CREATE TABLE located_tables (lots lots NOT NULL);
INSERT INTO located_tables VALUES (E'section,lot,acres\nT,3,N,3,W\n31,1,38.97\n31,2,39.01\n');
CREATE TABLE deeds (id int PRIMARY KEY, text text NOT NULL);
INSERT INTO deeds VALUES
    (1, 'T. 2 N., R. 3 W., sec. 5, lots 1 and 2; T. 3 N., R. 3 W., sec. 31, lots 1 and 2; sec. 32, S1/2.'),
    (2, 'T2N R3W sec. 7, lot 1; T4N R3W sec. 7, lot 4'),
    (3, 'T2N R3W sec. 5, lot 2; T3N R3W sec. 32, SE1/4; T5N R3W sec. 1, S1/2'),
    (4, 'T2N R3W sec. 37');
SELECT id, total_acres(numerator, denominator), count(numerator)
FROM deeds LEFT JOIN LATERAL lands_or_none(text) AS land ON true
LEFT JOIN located_tables ON township(lots) = township(land)
LEFT JOIN located_plats ON township(plat) = township(land)
LEFT JOIN LATERAL (
    SELECT * FROM area(lots, land) WHERE lots IS NOT NULL UNION ALL SELECT * FROM area(plat, land) WHERE lots IS NULL
) AS area ON true
GROUP BY id ORDER BY id;
-- The total is rounded once: lot 1 has 39.18 acres, and lot 4 has 39.03.
SELECT sum(acres(plat, land)), total_acres(numerator, denominator)
FROM deeds, lands(text) AS land JOIN located_plats ON township(plat) = township(land), area(plat, land)
WHERE id = 2;
SELECT total_acres(numerator, denominator) FROM (VALUES (1, 200), (1, 400)) AS area (numerator, denominator);
SELECT total_acres(numerator, denominator) FROM (VALUES (1, 200), (NULL, NULL), (1, 400)) AS area (numerator, denominator);
SELECT total_acres(numerator, denominator) FROM (VALUES (1, 3)) AS area (numerator, denominator) WHERE numerator > 1;
SELECT total_acres(2 * number + 1, 200) = sum((2 * number + 1)::numeric / 200) AS is_exact
FROM generate_series(0, 9999, 2) AS number;

-- Overlaps: of rows of land, in any townships.
CREATE TABLE deed_lands (deed int NOT NULL REFERENCES deeds, land land NOT NULL);
INSERT INTO deed_lands SELECT id, land FROM deeds, lands_or_none(text) AS land;
CREATE INDEX ON deed_lands USING gist (land);
SELECT overlaps(deed, land ORDER BY deed) FROM deed_lands;
SELECT one.deed, other.deed, one.land * other.land AS land
FROM deed_lands AS one JOIN deed_lands AS other ON one.deed < other.deed AND one.land && other.land
ORDER BY one.deed, other.deed, township(one.land);
SELECT township(land), union_of(land) FROM deed_lands GROUP BY township(land) ORDER BY 1;

-- The functions need nothing on the path.
SET search_path = pg_catalog;
SELECT public.total_acres(numerator, denominator), count(*) FROM public.deeds, public.lands_or_none(text) AS land
JOIN public.located_plats ON public.township(plat) = public.township(land), public.area(plat, land);
RESET search_path;
