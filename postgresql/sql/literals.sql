-- Calls with literals, without a cast: none of them is ambiguous. `plat.sql` has created the extension.
\set uneven `cat ../samples/b1.csv`

-- Field notes in place of a plat. 40.45 acres are 809/20.
SELECT acres(:'uneven', 'sec. 5, lot 1.'), acres(:'uneven', 'sec. 7, lots 1 to 4.', 'plat') AS by_plat,
       acres_or_null(:'uneven', 'sec. 7, lots 1 to 4.') AS exact, acres_or_null(:'uneven', 'sec. 7, lot 5.') IS NULL AS refused,
       acres_or_null(:'uneven', 'sec. 7, lots 1 to 4.', 'plat') AS by_plat_too;
SELECT * FROM area(:'uneven', 'sec. 5, lot 1.');
SELECT * FROM area(:'uneven', 'sec. 5, lot 1.', 'plat');
SELECT normal(:'uneven', 'sec. 14, SE1/4, NE1/4.'), notes(:'uneven', 'sec. 14.') IS NULL AS clear;
SELECT reading, acres FROM suggest(:'uneven', 'NE/4 Sec 14');
SELECT reading FROM suggest('NE/4 Sec 14');
SELECT acres FROM suggest(:'uneven', 'Lots 1-4 Sec 7', 'plat');
SELECT reading, acres FROM suggest(:'uneven', 'sec. 14, blah NE1/4', ARRAY['blah']);
SELECT reading FROM suggest('sec. 14, blah NE1/4', ignore => '{blah}');
SELECT unread('the old blah mill', '{blah}');
-- Land, too, as a value.
SELECT acres(:'uneven', land), acres_or_null(:'uneven', land), acres(:'uneven', land, 'plat') AS by_plat,
       acres_or_null(:'uneven', land, 'plat') AS by_plat_too, (area(:'uneven', land)).*,
       (area(:'uneven', land, 'plat')).numerator AS numerator_by_plat
FROM land('T. 2 N., R. 3 W.', 'sec. 7, lots 1 to 4.');
SELECT acres_or_null(:'uneven', 'T. 2 N., R. 4 W., sec. 14.'::land) IS NULL AS elsewhere;
-- As errors, they are those of the types.
SELECT acres('no notes', 'sec. 14.');
SELECT acres(:'uneven', 'sec. 5, lot 5.');
SELECT acres(:'uneven', 'sec. 5, lot 1.', 'neat');
SELECT acres(:'uneven', 'T. 2 N., R. 4 W., sec. 14.'::land);
-- A column of texts is the same as a literal, and a plat or a lot table is taken as before.
SELECT acres(notes, description) FROM (VALUES (:'uneven', 'sec. 5, lot 1.')) AS texts (notes, description);
SELECT acres(plat, 'sec. 5, lot 1.'), acres(plat, 'T. 2 N., R. 3 W., sec. 5, lot 1.'), township(plat)
FROM plats WHERE name = 'uneven';
SELECT acres(E'section,lot,acres\nT,2,N,3,W\n5,1,40.46\n'::lots, 'sec. 5, lot 1.');
PREPARE answer AS SELECT acres($1, $2);
EXECUTE answer (:'uneven', 'sec. 5, lot 1.');

-- Land, and the townships of descriptions and of notes.
SELECT land('T. 2 N., R. 3 W., sec. 14.'), land('T. 2 N., R. 3 W.', 'sec. 14.') AS in_township,
       land_or_null('T. 2 N., R. 3 W., sec. 14.') AS or_null, land_or_null('T. 2 N., R. 3 W.', 'sec. 14.') AS too;
SELECT township('t2s r3e sec 14'), township(:'uneven') AS of_notes, isempty('T. 2 N., R. 3 W., sec. 14.') AS some,
       isempty('T. 2 N., R. 3 W., no land.') AS none;
SELECT township('T. 2 N., R. 3 W., sec. 37.');
SELECT township('T. 0 N., R. 3 W., sec. 14.');
SELECT township('no notes');
SELECT isempty('sec. 14.');
SELECT number FROM refusal('T. 2 N., R. 3 W., sec. 5, lot 5.');
SELECT number FROM refusal('T. 2 N., R. 3 W.', 'sec. 5, lot 5.');
SELECT touches('T. 2 N., R. 3 W., sec. 14.', 'T. 2 N., R. 3 W., sec. 15.'), count(*) AS parts
FROM parts('T. 2 N., R. 3 W., sec. 14.');
SELECT text(land('T. 2 N., R. 3 W.', 'sec. 14.')), count(*) AS cells,
       length(svg('T. 2 N., R. 3 W., sec. 14.')) > 1000 AS drawn, length(svg(:'uneven', 'T. 2 N., R. 3 W., sec. 14.')) > 1000 AS on_plat,
       length(svg(:'uneven', 'T. 2 N., R. 3 W., sec. 14.', 14)) > 1000 AS section
FROM quarter_quarters('T. 2 N., R. 3 W., sec. 14.');
-- With a value on the other side, a literal in an operation is land. Without one, the first literal needs a cast.
SELECT 'T. 2 N., R. 3 W., sec. 14.'::land && 'T. 2 N., R. 3 W., sec. 14, NE1/4.' AS overlap,
       'T. 2 N., R. 3 W., sec. 14.'::land - 'T. 2 N., R. 3 W., sec. 14, N1/2.' AS first;
