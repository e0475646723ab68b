-- Readings: how a text, as people write it, would be written as a description. `plat.sql` has created the extension, and
-- the plats `even` and `uneven`.

-- A reading, and how many changes lead to it: `1/4` is written twice. A description is its own reading, without changes.
SELECT * FROM suggest('sec. 14, NENE');
SELECT * FROM suggest('sec. 14, NE1/4.');

-- White space between two parts: two parts of 40 acres each, or one part of 40 acres in 16, in this order.
SELECT suggested.* FROM plats, suggest(plat, 'sec. 14: NE¼NE¼ SW¼SW¼') AS suggested WHERE name = 'even';

-- What readings assume that the text does not say. Each white space is one space.
SELECT reading, unnest(assumes) AS assumed
FROM suggest(E'TRACT 1: NE/4 Sec 14, T2N R3W,\n Boise\t Meridian, containing 160.00 acres');
-- What is not left out: a number that is said again, steps that may lack a comma, in two changes, and a wrong letter.
SELECT unnest(assumes) AS assumed FROM suggest('Section Fourteen (14): N2SWSW, NEI/4.');
SELECT reading, assumes = '{}' AS nothing FROM suggest('N2 Sec 14');
-- Without a plat, its lots are not known: lots and whole sections, lots in place of an aliquot part, and what an exception
-- leaves are those of a regular township. Aliquot parts without lots assume nothing, and neither do descriptions that such
-- a plat refuses.
SELECT text, assumes FROM (VALUES ('Lot 1, Sec 5'), ('sec. 14.'), ('sec. 14, N1/2, S1/2.'), ('T2N R3W sec. 6, lot 7.'), ('N2 Sec 5'), ('Sec 14: W2 less the NENW'),
    ('TRACT 1: sec. 14.'), ('Sec 14: N2'), ('S2 Sec 5'), ('sec. 14, lot 1.'), ('sec. 5, N1/2.')) AS texts (text), suggest(text);
SELECT count(*) AS none FROM plats, (VALUES ('Lot 1, Sec 5'), ('sec. 14.'), ('N2 Sec 5')) AS texts (text), suggest(plat, text) WHERE assumes <> '{}';

-- A reading is on one line, with a single space for white space. Its acres are those of the description: here, the
-- northeast quarter's 160.
SELECT reading, acres, acres = acres(plat, 'sec. 14, NE1/4.') AS same
FROM plats, suggest(plat, E'T. 2 N., R. 3 W.,\r\nSec. 14:  \t NE¼\n') WHERE name = 'even';

-- An aliquot part that includes lots, which are named: 320 acres. An exception: 640 acres without 160.
SELECT reading, acres FROM plats, suggest(plat, 'N2 Sec 5') WHERE name = 'even';
SELECT reading, acres FROM plats, suggest(plat, 'Sec 14, less and except the NE/4') WHERE name = 'even';
-- The account: the figures of lots 1 to 4 of section 7 add up to 0.02 acre more than the exact areas.
SELECT exact.reading, exact.acres AS exact, by_plat.acres AS by_plat
FROM plats, suggest(plat, 'Lots 1-4 Sec 7') AS exact, suggest(plat, 'Lots 1-4 Sec 7', 'plat') AS by_plat
WHERE name = 'uneven';
SELECT acres FROM plats, suggest(plat, 'N2 Sec 14', 'neat') WHERE name = 'even';

-- A reading that the plat refuses has no acres: this one is in another township.
SELECT suggested.acres, refused.number
FROM plats, suggest(plat, 'N2 Sec 14-3N-3W') AS suggested, refusal(plat, reading) AS refused WHERE name = 'even';

-- A text without readings has a row, too, with the reason if lots and aliquot parts can't describe the land.
SELECT * FROM suggest('that portion of the NE/4 lying north of the road');
SELECT * FROM suggest('the old mill');
SELECT suggested.* FROM plats, suggest(plat, 'sec. 14, N½ of the road, being part of lot 2') AS suggested WHERE name = 'even';
SELECT suggested.* FROM plats, suggest(plat, '') AS suggested WHERE name = 'even';
SELECT count(*) AS rows FROM suggest(NULL);
SELECT count(*) AS rows FROM suggest(NULL::plat, 'sec. 14.');

-- So a join keeps each text: two readings, one, and none.
SELECT id, count(reading) AS readings, min(reason) AS reason, min(acres) AS least
FROM plats, (VALUES (1, 'sec. 14: NE¼NE¼ SW¼SW¼'), (2, 'NENE Sec 14'), (3, 'the old mill'), (4, 'lot 2, block 3')) AS texts (id, text),
    suggest(plat, text)
WHERE name = 'even' GROUP BY id ORDER BY id;
-- In the list of columns, and once for each row.
SELECT n, (suggest('sec. ' || n || ': NE¼ SW¼')).reading FROM generate_series(14, 15) AS n;
SELECT reading, ordinality FROM suggest('sec. 14: NE¼NE¼ SW¼SW¼') WITH ORDINALITY;
-- Readings are land.
SELECT land(plat, reading), land FROM plats, suggest(plat, 'NENE Sec 14'), land(plat, 'sec. 14, NE1/4NE1/4.')
WHERE name = 'even';

-- More changes and longer texts than the first call of the library has room for: 2 changes and 40 acres in each of 36
-- sections; and the longest text, whose reading has 5 bytes more, 65,536, and one that is longer.
SELECT acres, changes, acres = acres(plat, reading) AS same
FROM plats, suggest(plat, (SELECT string_agg('sec. ' || n || ', NE4SE4', '; ' ORDER BY n) FROM generate_series(1, 36) AS n))
WHERE name = 'even';
SELECT reading, changes FROM suggest(rpad('sec. 14, NENE4', 65531));
SELECT reading, reason FROM suggest(rpad('sec. 14, NENE4', 65532));
SELECT reading, reason FROM suggest(repeat('NE', 1000000));

-- Whatever is in a text, there are rows, and each reading is a description, which can be refused for its land alone.
-- One to four pieces of descriptions, in all kinds of orders, after a section.
CREATE TABLE pieces AS
SELECT n AS id, 'Sec. 14' || string_agg(CASE n % 3 WHEN 0 THEN ' ' WHEN 1 THEN ', ' ELSE E'\n' END || piece, '' ORDER BY k) AS text
FROM generate_series(1, 2000) AS n, generate_series(1, 4) AS k, LATERAL (
    SELECT (ARRAY['NE', 'N2', 'SW¼', 'S½', 'Sec. 15', '14', '-', 'Lots 1-4', 'T2N R3W', ';', 'less', 'of the', 'and', '(',
                  ')', 'Boise Meridian', 'NE/4', 'containing 160 acres', 'é', 'Sec 5', 'ALIQ', 'TRACT 1:', 'a portion'])
        [1 + abs(hashint8(n * 10 + k)::int8) % 23] AS piece
) AS chosen WHERE k <= 1 + n % 4 GROUP BY n;
SELECT count(DISTINCT id) AS texts, count(reading) > 200 AS some_readings, count(reason) > 50 AS some_reasons,
       count(*) FILTER (WHERE reading IS NULL AND (acres, changes, assumes) IS DISTINCT FROM (NULL, NULL, NULL)) AS partial,
       count(*) FILTER (WHERE reading IS NOT NULL AND reason IS NOT NULL) AS both,
       count(*) FILTER (WHERE acres IS DISTINCT FROM acres_or_null(plat, reading)) AS other_acres,
       count(*) FILTER (WHERE refused.number < 61) AS unreadable
FROM pieces, plats, suggest(plat, text), refusal(plat, reading) AS refused WHERE name = 'even';

-- What is unread of a text without readings: runs of words on one line, and phrases that can be read in two ways.
SELECT unnest(unread(E'½ bläh\nblip Sec. 14 blop')) AS unread;
SELECT unnest(unread('S2, 12, T2N R3W')) AS unread;
SELECT unread('NENE Sec 14') = '{}' AS nothing, unread('') = '{}' AS empty, unread(NULL) IS NULL AS none;

-- Phrases that the caller says are not land are left out: in either case, as whole words, and the first in the list counts.
SELECT * FROM suggest('sec. 14, blah NE1/4');
SELECT * FROM suggest('sec. 14, BLAH NE1/4', ARRAY['blah']);
SELECT * FROM suggest('sec. 14, blah quux NE1/4', ignore => ARRAY['blah quux', NULL, 'blah']);
SELECT * FROM suggest('sec. 14, blah blah NE1/4', ARRAY['', ' ', 'blah']);
SELECT reading IS NULL AS not_found FROM suggest('sec. 14, blahs NE1/4', ARRAY['blah']);
SELECT suggested.* FROM plats, suggest(plat, 'sec. 7, blah lots 1 to 4', ARRAY['blah'], 'plat') AS suggested WHERE name = 'uneven';
SELECT suggested.* FROM plats, suggest(plat, 'sec. 7, blah lots 1 to 4', ignore => ARRAY['blah']) AS suggested WHERE name = 'uneven';
-- What a reading assumes, from left to right.
SELECT unnest(assumes) AS assumed FROM suggest('TRACT 1: blah sec. 14, blah N2SW, Boise Meridian', ARRAY['blah']);
-- Without phrases, nothing is left out; without a text, there are no rows.
SELECT * FROM suggest('sec. 14, NE1/4.', NULL::text[]);
SELECT * FROM suggest('sec. 14, NE1/4.', '{}'::text[]);
SELECT count(*) AS rows FROM suggest(NULL, ARRAY['blah']);
SELECT count(*) AS rows FROM suggest(NULL::plat, 'sec. 14.', ARRAY['blah']);
SELECT count(*) AS rows FROM plats, suggest(plat, NULL, ARRAY['blah']);
SELECT count(*) AS rows FROM plats, suggest(plat, 'sec. 14.', ARRAY['blah'], NULL);
-- More places than the first call of the library has room for.
SELECT reading, changes, assumes FROM suggest(repeat('blah ', 1000) || 'sec. 14, NE1/4.', ARRAY['blah']);
-- What is unread besides them.
SELECT unread('the old blah mill', ARRAY['blah']), unread('the old mill', NULL) AS whole, unread(NULL, '{}') IS NULL AS none,
       unread('sec. 14, blah NE1/4', ARRAY['blah']) = '{}' AS nothing;
-- Phrases that name land, except it, or limit it are refused, and so are too many.
SELECT suggest('sec. 14.', ARRAY['blah', 'Lot 3']);
SELECT unread('sec. 14.', ARRAY['blah', NULL, 'north of']);
SELECT suggest(plat, 'sec. 14.', ARRAY['14']) FROM plats;
SELECT suggest('sec. 14.', array_fill('a'::text, ARRAY[65537]));
SELECT suggest('sec. 14.', ARRAY[repeat('a', 65537)]);
SELECT reading FROM suggest('sec. 14.', array_fill('a'::text, ARRAY[65536]));
