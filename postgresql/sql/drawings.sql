-- Drawings of land, and its quarter-quarter sections. `plat.sql` has created the extension and the table of plats.
CREATE SCHEMA drawings;
SET search_path = drawings, public;
CREATE FUNCTION found(svg text, path text) RETURNS text[] LANGUAGE sql IMMUTABLE AS
$$ SELECT xpath(path, xmlparse(DOCUMENT svg), ARRAY[ARRAY['s', 'http://www.w3.org/2000/svg']])::text[] $$;

-- What is on the sheet of a township: 36 sections with their acres, 47 lots, and the land.
CREATE TABLE drawn AS SELECT plat, land, svg(plat, land) AS svg, svg(plat, land, 6) AS sheet, svg(land) AS without
FROM plats, land(plat, 'sec. 5, lots 1 and 2, S1/2NE1/4; sec. 6, lots 1 to 7; sec. 14, SW1/4.') WHERE name = 'uneven';
SELECT found(svg, '/s:svg/s:title/text()') AS title, found(svg, '/s:svg/s:desc/text()') AS description,
       found(svg, '/s:svg/s:text/text()') AS words, found(svg, '//s:path/@class') AS paths
FROM drawn;
SELECT cardinality(numbers) AS numbers, numbers[1:4] AS first, numbers[9:14] AS some
FROM drawn, found(svg, '/s:svg/s:g/s:text/text()') AS numbers;
SELECT count(*) AS lots FROM drawn, regexp_matches((found(svg, '//s:path[@class="lots"]/@d'))[1], 'h8v8h-8z', 'g');
-- On that of section 6, its seven lots, and the land in it.
SELECT found(sheet, '/s:svg/s:title/text()') AS title, found(sheet, '/s:svg/s:desc/text()') AS description,
       found(sheet, '/s:svg/s:text/text()') AS words, found(sheet, '//s:path/@class') AS paths,
       found(sheet, '/s:svg/s:g/s:text/text()') AS numbers
FROM drawn;
SELECT found(sheet, '//s:path[@class="land"]/@d') AS land, found(sheet, '//s:path[@class="lots"]/@d') AS lots FROM drawn;
-- Without a plat, there are no acres.
SELECT found(without, '/s:svg/s:text/text()') AS words, cardinality(found(without, '//s:text')) AS texts,
       found(without, '//s:path/@d') = found(svg, '//s:path/@d') AS same_lines
FROM drawn;
-- Nothing is taken from elsewhere.
SELECT svg !~* '(href|url|import|script|@font|&(?!amp;|lt;|gt;))' AS alone FROM drawn;

-- The land on a sheet, by hand: section 14 is the second from the east in the third row, so its northwest corner is
-- 4 times 32 places from the west and 2 times 32 from the north. The northeast quarters of quarters begin 16, 24, 28,
-- and 30 places from the west of the section, here from SW of the third one on.
SELECT found(svg(land), '//s:path[@class="land"]/@d') AS in_township
FROM land('T. 2 N., R. 3 W.', 'sec. 14, NE1/4SW1/4NE1/4NE1/4NE1/4.');
SELECT found(svg(plat, land, 14), '//s:path[@class="land"]/@d') AS in_section, found(svg(plat, land, 15), '//s:path[@class="land"]/@d') AS other,
       found(svg(plat, land, 15), '//s:desc/text()') AS description, found(svg(plat, land, 15), '/s:svg/s:text/text()') AS words
FROM plats, land(plat, 'sec. 14, NE1/4SW1/4NE1/4NE1/4NE1/4.') WHERE name = 'uneven';
SELECT found(svg(land), '//s:path[@class="land"]/@d') AS corners
FROM land('T. 2 N., R. 3 W.', 'sec. 1, lot 1; sec. 6, lot 4; sec. 31, lot 4; sec. 36, SE1/4SE1/4; sec. 7, lot 1; sec. 12, NE1/4NE1/4.');
SELECT found(svg(land), '//s:path[@class="land"]/@d') AS land, found(svg(land), '//s:desc/text()') AS description
FROM (SELECT land - land AS land FROM land('T. 2 N., R. 3 W.', 'sec. 14.')) AS none;

-- Land of many shapes: the rectangles cover each quarter-quarter of the township as far as the land does, and overlap
-- nowhere. A place is 5/8 acre where all half miles are 40 chains. The four shapes touch 12, 6, 147, and 38 of them.
CREATE TABLE shapes AS SELECT n AS id, land
FROM (VALUES (1, 'sec. 1, lots 1 and 3; sec. 2, lot 4; sec. 6, lots 5 and 7; sec. 12, W1/2W1/2; sec. 7, lot 2, E1/2SE1/4.'),
    (2, 'sec. 14, NE1/4NW1/4SE1/4SW1/4NE1/4, W1/2SW1/4, SE1/4SE1/4NE1/4; sec. 13, S1/2NW1/4NW1/4; sec. 31, lot 3.'),
    (3, 'secs. 9 thru 17; sec. 36, N1/2NE1/4, SW1/4NE1/4.'), (4, 'sec. 20, N1/2N1/2N1/2, E1/2SE1/4SE1/4; secs. 22 and 25; sec. 30, lot 1.'))
    AS texts (n, description), land('T. 2 N., R. 3 W.', description);
CREATE TABLE places AS
SELECT id, x, y
FROM shapes, regexp_matches((found(svg(land), '//s:path[@class="land"]/@d'))[1], 'M(\d+) (\d+)h(\d+)v(\d+)h-\3z', 'g') AS box,
     generate_series(box[1]::int, box[1]::int + box[3]::int - 1) AS x, generate_series(box[2]::int, box[2]::int + box[4]::int - 1) AS y;
SELECT count(*) = count(DISTINCT (id, x, y)) AS apart, min(x) >= 0 AND min(y) >= 0 AND max(x) < 192 AND max(y) < 192 AS inside FROM places;
-- The quarter-quarter at column c from the west and row r from the north of section s.
CREATE TABLE cells AS
SELECT 32 * (CASE WHEN (s - 1) / 6 % 2 = 0 THEN 5 - (s - 1) % 6 ELSE (s - 1) % 6 END) + 8 * c AS x, 32 * ((s - 1) / 6) + 8 * r AS y,
       land('T. 2 N., R. 3 W.', format('sec. %s, %s.', s, CASE
           WHEN s <= 6 AND r = 0 THEN 'lot ' || 4 - c
           WHEN s IN (6, 7, 18, 19, 30, 31) AND c = 0 THEN 'lot ' || r + CASE s WHEN 6 THEN 4 ELSE 1 END
           ELSE (ARRAY['NW', 'NE', 'SW', 'SE'])[1 + c % 2 + 2 * (r % 2)] || '1/4' || (ARRAY['NW', 'NE', 'SW', 'SE'])[1 + c / 2 + 2 * (r / 2)] || '1/4'
       END)) AS land
FROM generate_series(1, 36) AS s, generate_series(0, 3) AS c, generate_series(0, 3) AS r;
SELECT count(*) AS cells, count(*) FILTER (WHERE drawn > 0) AS drawn, count(*) FILTER (WHERE round(drawn * 0.625, 2) <> acres) AS wrong
FROM (
    SELECT coalesce(places, 0) AS drawn, acres(plat, shapes.land * cells.land) AS acres
    FROM plats CROSS JOIN shapes CROSS JOIN cells
    LEFT JOIN (SELECT id, 8 * (x / 8) AS x, 8 * (y / 8) AS y, count(*) AS places FROM places GROUP BY 1, 2, 3) AS counted USING (id, x, y)
    WHERE name = 'even'
) AS compared;

-- The largest drawing: every second smallest part, except in the lots. Its description is cut.
CREATE FUNCTION checkered(section int) RETURNS land LANGUAGE sql IMMUTABLE AS $$
    WITH quarters (quarter) AS (SELECT unnest(ARRAY['NE', 'NW', 'SW', 'SE']))
    SELECT land('T. 3 S., R. 4 E.', format('sec. %s, %s.', section, string_agg(
        format('%s1/4%s1/4%s1/4%s1/4%s1/4', half, a.quarter, b.quarter, c.quarter, d.quarter), ', ')))
    FROM (VALUES ('NE'), ('SW')) AS halves (half), quarters a, quarters b, quarters c, quarters d
$$;
CREATE TABLE largest AS SELECT union_of(checkered(section)) AS land FROM generate_series(1, 36) AS section
WHERE section NOT IN (1, 2, 3, 4, 5, 6, 7, 18, 19, 30, 31);
-- 25 sections of 512 places.
SELECT count(*) AS boxes FROM largest, regexp_matches(svg(land), 'h1v1h-1z', 'g');
SELECT length(svg(land)) < 300000 AS bounded, length((found(svg(land), '//s:desc/text()'))[1]) AS description FROM largest;

-- What there is no drawing of.
SELECT svg(plat, land, 0) FROM drawn;
SELECT svg(plat, land, 37) FROM drawn;
SELECT svg(plat, land, NULL) IS NULL AS none FROM drawn;
SELECT svg(plat, 'T. 2 N., R. 4 W., sec. 14.') FROM drawn;
SELECT svg(plat, 'T. 2 N., R. 4 W., sec. 14.', 14) FROM drawn;

-- Quarter-quarter sections, to join with parcels: lots by their number, others by their name.
SELECT * FROM quarter_quarters('T. 2 N., R. 3 W., sec. 6, lot 7, NE1/4SE1/4; sec. 14, SW1/4, NE1/4NE1/4NE1/4, N1/2SE1/4NE1/4.');
SELECT count(*) AS cells, count(lot) AS lots, count(quarter_quarter) AS others, bool_and(whole) AS whole, union_of(part) = min(land) AS all_of_it
FROM land('T. 2 N., R. 3 W.', 'secs. 1 thru 36.'), quarter_quarters(land);
SELECT count(*) FROM drawn, quarter_quarters(land - land);
-- Each is where it is said to be, and together they are the land.
SELECT count(*) AS cells, bool_and(part = land * land('T. 2 N., R. 3 W.', format('sec. %s, %s.', section,
        coalesce('lot ' || lot, left(quarter_quarter, 2) || '1/4' || right(quarter_quarter, 2) || '1/4')))) AS placed,
    bool_and(whole = (acres(plat, part) = 40)) AS whole
FROM plats, shapes, quarter_quarters(land) WHERE name = 'even';
SELECT id, union_of(part) = land AS together, count(DISTINCT (section, lot, quarter_quarter)) = count(*) AS apart
FROM shapes, quarter_quarters(land) GROUP BY id, land ORDER BY id;
