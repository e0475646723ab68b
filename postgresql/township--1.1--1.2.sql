-- What version 1.2 of the extension township adds to version 1.1. The bytes of stored values don't change.
-- unreleased: until the first release, this script may change.

\echo Use "ALTER EXTENSION township UPDATE TO '1.2'" to load this file. \quit

COMMENT ON TYPE plat IS 'the plat of a township, made from field notes (CSV): the closing quarters of its lines';

-- Descriptions with a heading of their own.

CREATE FUNCTION land_or_null(description text) RETURNS land
AS 'MODULE_PATHNAME', 'twpg_land_of_text_or_null' LANGUAGE C IMMUTABLE STRICT PARALLEL SAFE COST 40;
COMMENT ON FUNCTION land_or_null(text)
IS 'the land of a description with a heading, or NULL if it has none or is refused';

CREATE OR REPLACE FUNCTION refusal(
    notes text,
    OUT number int4, OUT at int4, OUT line_number int4, OUT column_number int4,
    OUT message text, OUT excerpt text, OUT help text
) AS 'MODULE_PATHNAME', 'twpg_refusal_of_text' LANGUAGE C IMMUTABLE STRICT PARALLEL SAFE COST 200;
COMMENT ON FUNCTION refusal(text)
IS 'why a description with a heading, or field notes, are refused, or NULL if they are accepted';

-- Calls with a literal in place of a plat or of land, which PostgreSQL takes for a text.

CREATE FUNCTION acres(notes text, description text, account text DEFAULT 'exact') RETURNS numeric
AS 'MODULE_PATHNAME', 'twpg_acres_by_notes' LANGUAGE C IMMUTABLE STRICT PARALLEL SAFE COST 125;
COMMENT ON FUNCTION acres(text, text, text)
IS 'the acres of the land described, on the plat of field notes, rounded once to hundredths';

CREATE FUNCTION acres_or_null(notes text, description text, account text DEFAULT 'exact') RETURNS numeric
AS 'MODULE_PATHNAME', 'twpg_acres_by_notes_or_null' LANGUAGE C IMMUTABLE STRICT PARALLEL SAFE COST 125;
COMMENT ON FUNCTION acres_or_null(text, text, text)
IS 'the acres of the land described, on the plat of field notes, or NULL if it is refused';

CREATE FUNCTION area(
    notes text, description text, account text DEFAULT 'exact',
    OUT numerator numeric, OUT denominator numeric
) AS 'MODULE_PATHNAME', 'twpg_area_by_notes' LANGUAGE C IMMUTABLE STRICT PARALLEL SAFE COST 130;
COMMENT ON FUNCTION area(text, text, text)
IS 'the exact acreage of the land described, on the plat of field notes, in lowest terms';

CREATE FUNCTION acres(notes text, land land, account text DEFAULT 'exact') RETURNS numeric
AS 'MODULE_PATHNAME', 'twpg_acres_of_land_by_notes' LANGUAGE C IMMUTABLE STRICT PARALLEL SAFE COST 120;
COMMENT ON FUNCTION acres(text, land, text)
IS 'the acres of land, on the plat of field notes, rounded once to hundredths';

CREATE FUNCTION acres_or_null(notes text, land land, account text DEFAULT 'exact') RETURNS numeric
AS 'MODULE_PATHNAME', 'twpg_acres_of_land_by_notes_or_null' LANGUAGE C IMMUTABLE STRICT PARALLEL SAFE COST 120;
COMMENT ON FUNCTION acres_or_null(text, land, text)
IS 'the acres of land, on the plat of field notes, or NULL if it is in another township';

CREATE FUNCTION area(
    notes text, land land, account text DEFAULT 'exact',
    OUT numerator numeric, OUT denominator numeric
) AS 'MODULE_PATHNAME', 'twpg_area_of_land_by_notes' LANGUAGE C IMMUTABLE STRICT PARALLEL SAFE COST 125;
COMMENT ON FUNCTION area(text, land, text)
IS 'the exact acreage of land, on the plat of field notes, in lowest terms';

CREATE FUNCTION township(description text) RETURNS text
AS 'MODULE_PATHNAME', 'twpg_township_of_text' LANGUAGE C IMMUTABLE STRICT PARALLEL SAFE COST 100;
COMMENT ON FUNCTION township(text)
IS 'the designation of the township of a description with a heading, or of field notes';

CREATE FUNCTION designation(spelling text) RETURNS text
AS 'MODULE_PATHNAME', 'twpg_designation' LANGUAGE C IMMUTABLE STRICT PARALLEL SAFE COST 20;
COMMENT ON FUNCTION designation(text)
IS 'the designation of a township in any spelling, such as T. 2 N., R. 3 W. of 2N-3W';

CREATE FUNCTION designation_or_null(spelling text) RETURNS text
AS 'MODULE_PATHNAME', 'twpg_designation_or_null' LANGUAGE C IMMUTABLE STRICT PARALLEL SAFE COST 20;
COMMENT ON FUNCTION designation_or_null(text)
IS 'the designation of a township in any spelling, or NULL if the text spells none';

CREATE FUNCTION isempty(description text) RETURNS bool
AS 'MODULE_PATHNAME', 'twpg_text_is_empty' LANGUAGE C IMMUTABLE STRICT PARALLEL SAFE COST 40;
COMMENT ON FUNCTION isempty(text) IS 'whether a description with a heading is of no land at all';

-- The first and the last land in the order of land.

CREATE FUNCTION land_smaller(land, land) RETURNS land
AS 'MODULE_PATHNAME', 'twpg_land_smaller' LANGUAGE C IMMUTABLE STRICT PARALLEL SAFE;

CREATE FUNCTION land_larger(land, land) RETURNS land
AS 'MODULE_PATHNAME', 'twpg_land_larger' LANGUAGE C IMMUTABLE STRICT PARALLEL SAFE;

CREATE AGGREGATE min(land) (
    SFUNC = land_smaller, STYPE = land, COMBINEFUNC = land_smaller, SORTOP = <, PARALLEL = SAFE
);
COMMENT ON AGGREGATE min(land) IS 'the first land, in the order by township and section';

CREATE AGGREGATE max(land) (
    SFUNC = land_larger, STYPE = land, COMBINEFUNC = land_larger, SORTOP = >, PARALLEL = SAFE
);
COMMENT ON AGGREGATE max(land) IS 'the last land, in the order by township and section';

-- Parcels that adjoin.

CREATE FUNCTION touches(land, land) RETURNS bool
AS 'MODULE_PATHNAME', 'twpg_land_touches' LANGUAGE C IMMUTABLE STRICT PARALLEL SAFE COST 50;
COMMENT ON FUNCTION touches(land, land)
IS 'whether they share a side, but no land; NULL if they are in two different townships';

-- The lots and quarter-quarter sections of land, for a join with the parcels of a GIS, and a drawing of it.

CREATE FUNCTION quarter_quarters(
    land land, OUT section int4, OUT lot int4, OUT quarter_quarter text, OUT whole bool, OUT part land
) RETURNS SETOF record
AS 'MODULE_PATHNAME', 'twpg_quarter_quarters' LANGUAGE C IMMUTABLE STRICT PARALLEL SAFE COST 100 ROWS 8;
COMMENT ON FUNCTION quarter_quarters(land) IS 'the lots and quarter-quarter sections that have some of the land';

CREATE FUNCTION svg(land land) RETURNS text
AS 'MODULE_PATHNAME', 'twpg_svg' LANGUAGE C IMMUTABLE STRICT PARALLEL SAFE COST 1000;
COMMENT ON FUNCTION svg(land) IS 'a drawing of the township, with the land, as an SVG document';

CREATE FUNCTION svg(plat plat, land land) RETURNS text
AS 'MODULE_PATHNAME', 'twpg_svg_on_plat' LANGUAGE C IMMUTABLE STRICT PARALLEL SAFE COST 1000;
COMMENT ON FUNCTION svg(plat, land) IS 'a drawing of the plat, with the land, as an SVG document';

CREATE FUNCTION svg(plat plat, land land, section int4) RETURNS text
AS 'MODULE_PATHNAME', 'twpg_svg_of_section_on_plat' LANGUAGE C IMMUTABLE STRICT PARALLEL SAFE COST 1000;
COMMENT ON FUNCTION svg(plat, land, int4)
IS 'a drawing of a section of the plat, with the land in it, as an SVG document';

-- The order of lot tables, for sorting, grouping, and indexes.

CREATE FUNCTION lots_cmp(lots, lots) RETURNS int4
AS 'MODULE_PATHNAME', 'twpg_lots_cmp' LANGUAGE C IMMUTABLE STRICT PARALLEL SAFE;

CREATE FUNCTION lots_lt(lots, lots) RETURNS bool
AS 'MODULE_PATHNAME', 'twpg_lots_lt' LANGUAGE C IMMUTABLE STRICT PARALLEL SAFE;

CREATE FUNCTION lots_le(lots, lots) RETURNS bool
AS 'MODULE_PATHNAME', 'twpg_lots_le' LANGUAGE C IMMUTABLE STRICT PARALLEL SAFE;

CREATE FUNCTION lots_gt(lots, lots) RETURNS bool
AS 'MODULE_PATHNAME', 'twpg_lots_gt' LANGUAGE C IMMUTABLE STRICT PARALLEL SAFE;

CREATE FUNCTION lots_ge(lots, lots) RETURNS bool
AS 'MODULE_PATHNAME', 'twpg_lots_ge' LANGUAGE C IMMUTABLE STRICT PARALLEL SAFE;

CREATE FUNCTION lots_hash(lots) RETURNS int4
AS 'MODULE_PATHNAME', 'twpg_lots_hash' LANGUAGE C IMMUTABLE STRICT PARALLEL SAFE;

CREATE FUNCTION lots_hash_extended(lots, int8) RETURNS int8
AS 'MODULE_PATHNAME', 'twpg_lots_hash_extended' LANGUAGE C IMMUTABLE STRICT PARALLEL SAFE;

CREATE OPERATOR < (
    LEFTARG = lots, RIGHTARG = lots, FUNCTION = lots_lt, COMMUTATOR = >, NEGATOR = >=,
    RESTRICT = scalarltsel, JOIN = scalarltjoinsel
);
CREATE OPERATOR <= (
    LEFTARG = lots, RIGHTARG = lots, FUNCTION = lots_le, COMMUTATOR = >=, NEGATOR = >,
    RESTRICT = scalarlesel, JOIN = scalarlejoinsel
);
CREATE OPERATOR > (
    LEFTARG = lots, RIGHTARG = lots, FUNCTION = lots_gt, COMMUTATOR = <, NEGATOR = <=,
    RESTRICT = scalargtsel, JOIN = scalargtjoinsel
);
CREATE OPERATOR >= (
    LEFTARG = lots, RIGHTARG = lots, FUNCTION = lots_ge, COMMUTATOR = <=, NEGATOR = <,
    RESTRICT = scalargesel, JOIN = scalargejoinsel
);

CREATE OPERATOR CLASS lots_ops DEFAULT FOR TYPE lots USING btree AS
    OPERATOR 1 <, OPERATOR 2 <=, OPERATOR 3 =, OPERATOR 4 >=, OPERATOR 5 >,
    FUNCTION 1 lots_cmp(lots, lots);

CREATE OPERATOR CLASS lots_hash_ops DEFAULT FOR TYPE lots USING hash AS
    OPERATOR 1 =,
    FUNCTION 1 lots_hash(lots),
    FUNCTION 2 lots_hash_extended(lots, int8);

-- Texts without a reading.

CREATE FUNCTION unread(description text) RETURNS text[]
AS 'MODULE_PATHNAME', 'twpg_unread' LANGUAGE C IMMUTABLE STRICT PARALLEL SAFE COST 1000;
COMMENT ON FUNCTION unread(text)
IS 'what of a text without readings is not understood, or can be read in two ways; empty if it has readings';

-- Readings without phrases that the caller says are not land. If the phrases are NULL, nothing is left out. With the
-- function on field notes, the first of two literals is taken for these, as before.

CREATE FUNCTION suggest(
    notes text, description text, account text DEFAULT 'exact',
    OUT reading text, OUT acres numeric, OUT changes int4, OUT assumes text[], OUT reason text
) RETURNS SETOF record
AS 'MODULE_PATHNAME', 'twpg_suggest_by_notes' LANGUAGE C IMMUTABLE STRICT PARALLEL SAFE COST 600 ROWS 1;
COMMENT ON FUNCTION suggest(text, text, text)
IS 'the descriptions that a text can be read as, with their acres on the plat of field notes, or a row without one';

CREATE FUNCTION suggest(
    description text, ignore text[], OUT reading text, OUT changes int4, OUT assumes text[], OUT reason text
) RETURNS SETOF record
AS 'MODULE_PATHNAME', 'twpg_suggest_without' LANGUAGE C IMMUTABLE PARALLEL SAFE COST 500 ROWS 1;
COMMENT ON FUNCTION suggest(text, text[])
IS 'the descriptions that a text can be read as without some phrases, or a row without one';

CREATE FUNCTION suggest(
    plat plat, description text, ignore text[], account text DEFAULT 'exact',
    OUT reading text, OUT acres numeric, OUT changes int4, OUT assumes text[], OUT reason text
) RETURNS SETOF record
AS 'MODULE_PATHNAME', 'twpg_suggest_on_plat_without' LANGUAGE C IMMUTABLE PARALLEL SAFE COST 500 ROWS 1;
COMMENT ON FUNCTION suggest(plat, text, text[], text)
IS 'the descriptions that a text can be read as without some phrases, with their acres, or a row without one';

CREATE FUNCTION unread(description text, ignore text[]) RETURNS text[]
AS 'MODULE_PATHNAME', 'twpg_unread_without' LANGUAGE C IMMUTABLE PARALLEL SAFE COST 1000;
COMMENT ON FUNCTION unread(text, text[])
IS 'what is unread of a text without readings, apart from some phrases; empty if it has readings';

-- Texts with the land of several townships.

CREATE FUNCTION lands(description text) RETURNS SETOF land
AS 'MODULE_PATHNAME', 'twpg_lands' LANGUAGE C IMMUTABLE STRICT PARALLEL SAFE COST 100 ROWS 2;
COMMENT ON FUNCTION lands(text) IS 'the land of a text in each of its townships';

CREATE FUNCTION lands_or_none(description text) RETURNS SETOF land
AS 'MODULE_PATHNAME', 'twpg_lands_or_none' LANGUAGE C IMMUTABLE STRICT PARALLEL SAFE COST 100 ROWS 2;
COMMENT ON FUNCTION lands_or_none(text)
IS 'the land of a text in each of its townships; no rows if the text is refused';

CREATE FUNCTION lands_refusal(
    description text,
    OUT number int4, OUT at int4, OUT line_number int4, OUT column_number int4,
    OUT message text, OUT excerpt text, OUT help text
) AS 'MODULE_PATHNAME', 'twpg_lands_refusal' LANGUAGE C IMMUTABLE STRICT PARALLEL SAFE COST 200;
COMMENT ON FUNCTION lands_refusal(text)
IS 'why a text with the land of several townships is refused, or NULL if it is accepted';

-- The exact sum of areas. The state is a fraction in lowest terms, or NULL once an area is missing. These functions name
-- nothing of the extension, which may not be on the path.

CREATE FUNCTION areas_add(state numeric[], numerator numeric, denominator numeric) RETURNS numeric[] AS $$
    SELECT CASE WHEN sum.n IS NOT NULL THEN ARRAY[div(sum.n, gcd(sum.n, sum.d)), div(sum.d, gcd(sum.n, sum.d))] END
    FROM (SELECT state[1] * denominator + numerator * state[2] AS n, state[2] * denominator AS d) AS sum
$$ LANGUAGE sql IMMUTABLE PARALLEL SAFE;

CREATE FUNCTION areas_combine(first numeric[], second numeric[]) RETURNS numeric[] AS $$
    SELECT CASE WHEN sum.n IS NOT NULL THEN ARRAY[div(sum.n, gcd(sum.n, sum.d)), div(sum.d, gcd(sum.n, sum.d))] END
    FROM (SELECT first[1] * second[2] + second[1] * first[2] AS n, first[2] * second[2] AS d) AS sum
$$ LANGUAGE sql IMMUTABLE PARALLEL SAFE;

CREATE FUNCTION areas_rounded(state numeric[]) RETURNS numeric AS $$
    SELECT div(200 * state[1] + state[2], 2 * state[2]) * 0.01
$$ LANGUAGE sql IMMUTABLE PARALLEL SAFE;

CREATE AGGREGATE total_acres(numerator numeric, denominator numeric) (
    SFUNC = areas_add, STYPE = numeric[], INITCOND = '{0,1}', COMBINEFUNC = areas_combine, FINALFUNC = areas_rounded,
    PARALLEL = SAFE
);
COMMENT ON AGGREGATE total_acres(numeric, numeric)
IS 'the exact sum of areas, rounded once to hundredths; NULL if any of them is missing';

-- What is unclear in a description on the plat of a lot table.

CREATE FUNCTION notes(
    lots lots, description text,
    OUT line_number int4, OUT column_number int4, OUT message text, OUT excerpt text, OUT help text
) AS 'MODULE_PATHNAME', 'twpg_notes_by_lots' LANGUAGE C IMMUTABLE STRICT PARALLEL SAFE COST 100;
COMMENT ON FUNCTION notes(lots, text)
IS 'a place in an accepted description that can be read in two ways, or NULL if there is none';

CREATE FUNCTION notes(
    notes text, description text,
    OUT line_number int4, OUT column_number int4, OUT message text, OUT excerpt text, OUT help text
) AS 'MODULE_PATHNAME', 'twpg_notes_by_notes' LANGUAGE C IMMUTABLE STRICT PARALLEL SAFE COST 200;
COMMENT ON FUNCTION notes(text, text)
IS 'a place in a description, accepted on the plat of field notes, that can be read in two ways, or NULL';

-- Lists of tracts: a CSV text, which an aggregate makes from rows. A row without a name or a description stays in the
-- list, and is refused there. The first function names nothing of the extension, which may not be on the path.

CREATE FUNCTION tract_list_add(list text, name text, description text) RETURNS text AS $$
    SELECT list || '"' || replace(coalesce(name, ''), '"', '""') || '","'
        || replace(coalesce(description, ''), '"', '""') || E'"\n'
$$ LANGUAGE sql IMMUTABLE PARALLEL SAFE;

CREATE AGGREGATE tract_list(name text, description text) (
    SFUNC = tract_list_add, STYPE = text, INITCOND = E'name,description\n', PARALLEL = SAFE
);
COMMENT ON AGGREGATE tract_list(text, text) IS 'a list of tracts (CSV), from their names and descriptions';

CREATE FUNCTION report(
    plat plat, list text,
    OUT record int4, OUT name text, OUT acres numeric, OUT number int4, OUT inner_number int4, OUT inner_at int4
) RETURNS SETOF record
AS 'MODULE_PATHNAME', 'twpg_report' LANGUAGE C IMMUTABLE STRICT PARALLEL SAFE COST 10000 ROWS 100;
COMMENT ON FUNCTION report(plat, text) IS 'the acres of each tract of a list, or why it is refused';

CREATE FUNCTION report(
    lots lots, list text,
    OUT record int4, OUT name text, OUT acres numeric, OUT number int4, OUT inner_number int4, OUT inner_at int4
) RETURNS SETOF record
AS 'MODULE_PATHNAME', 'twpg_report_by_lots' LANGUAGE C IMMUTABLE STRICT PARALLEL SAFE COST 10000 ROWS 100;
COMMENT ON FUNCTION report(lots, text) IS 'the acres of each tract of a list by a lot table, or why it is refused';

CREATE FUNCTION report(
    notes text, list text,
    OUT record int4, OUT name text, OUT acres numeric, OUT number int4, OUT inner_number int4, OUT inner_at int4
) RETURNS SETOF record
AS 'MODULE_PATHNAME', 'twpg_report_by_notes' LANGUAGE C IMMUTABLE STRICT PARALLEL SAFE COST 10100 ROWS 100;
COMMENT ON FUNCTION report(text, text)
IS 'the acres of each tract of a list, on the plat of field notes, or why it is refused';

CREATE FUNCTION overlaps(plat plat, list text, OUT first int4, OUT second int4, OUT acres numeric, OUT lacking int4)
RETURNS SETOF record
AS 'MODULE_PATHNAME', 'twpg_list_overlaps' LANGUAGE C IMMUTABLE STRICT PARALLEL SAFE COST 10000 ROWS 10;
COMMENT ON FUNCTION overlaps(plat, text) IS 'the pairs of tracts of a list that overlap, with the acres in both';

CREATE FUNCTION overlaps(lots lots, list text, OUT first int4, OUT second int4, OUT acres numeric, OUT lacking int4)
RETURNS SETOF record
AS 'MODULE_PATHNAME', 'twpg_list_overlaps_by_lots' LANGUAGE C IMMUTABLE STRICT PARALLEL SAFE COST 10000 ROWS 10;
COMMENT ON FUNCTION overlaps(lots, text)
IS 'the pairs of tracts of a list that overlap on the plat of a lot table, with the acres in both by the table';

CREATE FUNCTION overlaps(notes text, list text, OUT first int4, OUT second int4, OUT acres numeric, OUT lacking int4)
RETURNS SETOF record
AS 'MODULE_PATHNAME', 'twpg_list_overlaps_by_notes' LANGUAGE C IMMUTABLE STRICT PARALLEL SAFE COST 10100 ROWS 10;
COMMENT ON FUNCTION overlaps(text, text)
IS 'the pairs of tracts of a list that overlap on the plat of field notes, with the acres in both';

-- Land on the plat of a lot table.

CREATE FUNCTION land(lots lots, description text) RETURNS land
AS 'MODULE_PATHNAME', 'twpg_land_by_lots' LANGUAGE C IMMUTABLE STRICT PARALLEL SAFE COST 30;
COMMENT ON FUNCTION land(lots, text) IS 'the land described, on the plat of a lot table';

CREATE FUNCTION land_or_null(lots lots, description text) RETURNS land
AS 'MODULE_PATHNAME', 'twpg_land_by_lots_or_null' LANGUAGE C IMMUTABLE STRICT PARALLEL SAFE COST 30;
COMMENT ON FUNCTION land_or_null(lots, text)
IS 'the land described, on the plat of a lot table, or NULL if the description is refused';

CREATE FUNCTION normal(lots lots, land land) RETURNS text
AS 'MODULE_PATHNAME', 'twpg_normal_of_land_by_lots' LANGUAGE C IMMUTABLE STRICT PARALLEL SAFE COST 40;
COMMENT ON FUNCTION normal(lots, land) IS 'the canonical description of land, with the lots of a lot table';

CREATE FUNCTION normal(lots lots, description text) RETURNS text
AS 'MODULE_PATHNAME', 'twpg_normal_by_lots' LANGUAGE C IMMUTABLE STRICT PARALLEL SAFE COST 60;
COMMENT ON FUNCTION normal(lots, text)
IS 'the canonical description of the land described, with the lots of a lot table';

CREATE FUNCTION normal(notes text, description text) RETURNS text
AS 'MODULE_PATHNAME', 'twpg_normal_by_notes' LANGUAGE C IMMUTABLE STRICT PARALLEL SAFE COST 150;
COMMENT ON FUNCTION normal(text, text)
IS 'the canonical description of the land described, on the plat of field notes';

CREATE FUNCTION plat_date(land land) RETURNS date
AS 'MODULE_PATHNAME', 'twpg_land_plat_date' LANGUAGE C IMMUTABLE STRICT PARALLEL SAFE;
COMMENT ON FUNCTION plat_date(land)
IS 'the date on which the plat that the land is on was approved, or NULL if it is not known';

CREATE FUNCTION has_own_lots(land land) RETURNS bool
AS 'MODULE_PATHNAME', 'twpg_land_has_own_lots' LANGUAGE C IMMUTABLE STRICT PARALLEL SAFE;
COMMENT ON FUNCTION has_own_lots(land)
IS 'whether the lots of the plat that the land is on are those of a lot table, and not the standard ones';

CREATE FUNCTION plat_date(lots lots) RETURNS date
AS 'MODULE_PATHNAME', 'twpg_lots_plat_date' LANGUAGE C IMMUTABLE STRICT PARALLEL SAFE;
COMMENT ON FUNCTION plat_date(lots)
IS 'the date on which the plat of a lot table was approved, or NULL if it is not known';

CREATE FUNCTION has_own_lots(lots lots) RETURNS bool
AS 'MODULE_PATHNAME', 'twpg_lots_has_own_lots' LANGUAGE C IMMUTABLE STRICT PARALLEL SAFE;
COMMENT ON FUNCTION has_own_lots(lots)
IS 'whether a lot table says where its lots lie, and so has not the standard ones';

CREATE FUNCTION plat_date(description text) RETURNS date
AS 'MODULE_PATHNAME', 'twpg_text_plat_date' LANGUAGE C IMMUTABLE STRICT PARALLEL SAFE COST 40;
COMMENT ON FUNCTION plat_date(text)
IS 'the date on which the plat of a description with a heading was approved, or NULL if it is not known';

CREATE FUNCTION has_own_lots(description text) RETURNS bool
AS 'MODULE_PATHNAME', 'twpg_text_has_own_lots' LANGUAGE C IMMUTABLE STRICT PARALLEL SAFE COST 40;
COMMENT ON FUNCTION has_own_lots(text)
IS 'whether a description with a heading is of a plat with the lots of a lot table, and not the standard ones';

CREATE FUNCTION quarter_quarters(
    lots lots, land land, OUT section int4, OUT lot int4, OUT quarter_quarter text, OUT whole bool, OUT part land
) RETURNS SETOF record
AS 'MODULE_PATHNAME', 'twpg_quarter_quarters_by_lots' LANGUAGE C IMMUTABLE STRICT PARALLEL SAFE COST 100 ROWS 8;
COMMENT ON FUNCTION quarter_quarters(lots, land)
IS 'the lots and quarter-quarter sections that have some of the land, with the lots of a lot table';

CREATE FUNCTION parts(lots lots, land land, OUT section int4, OUT lot int4, OUT part land) RETURNS SETOF record
AS 'MODULE_PATHNAME', 'twpg_parts_by_lots' LANGUAGE C IMMUTABLE STRICT PARALLEL SAFE COST 100 ROWS 4;
COMMENT ON FUNCTION parts(lots, land)
IS 'the parts of land that its description by a lot table names: lots, and other parts of sections';

-- Readings by a lot table: on its plat, with its lots. The function on field notes keeps a literal in their place from
-- being taken for either of the two.

CREATE FUNCTION suggest(
    lots lots, description text,
    OUT reading text, OUT acres numeric, OUT changes int4, OUT assumes text[], OUT reason text
) RETURNS SETOF record
AS 'MODULE_PATHNAME', 'twpg_suggest_by_lots' LANGUAGE C IMMUTABLE STRICT PARALLEL SAFE COST 500 ROWS 1;
COMMENT ON FUNCTION suggest(lots, text)
IS 'the descriptions that a text can be read as on the plat of a lot table, with their acres, or a row without one';

CREATE FUNCTION suggest(
    lots lots, description text, ignore text[],
    OUT reading text, OUT acres numeric, OUT changes int4, OUT assumes text[], OUT reason text
) RETURNS SETOF record
AS 'MODULE_PATHNAME', 'twpg_suggest_by_lots_without' LANGUAGE C IMMUTABLE PARALLEL SAFE COST 500 ROWS 1;
COMMENT ON FUNCTION suggest(lots, text, text[])
IS 'the descriptions that a text can be read as on the plat of a lot table without some phrases, with their acres, or a row without one';

CREATE FUNCTION suggest(
    notes text, description text, ignore text[], account text DEFAULT 'exact',
    OUT reading text, OUT acres numeric, OUT changes int4, OUT assumes text[], OUT reason text
) RETURNS SETOF record
AS 'MODULE_PATHNAME', 'twpg_suggest_by_notes_without' LANGUAGE C IMMUTABLE PARALLEL SAFE COST 600 ROWS 1;
COMMENT ON FUNCTION suggest(text, text, text[], text)
IS 'the descriptions that a text can be read as without some phrases, with their acres on the plat of field notes, or a row without one';

CREATE FUNCTION unread(lots lots, description text, ignore text[]) RETURNS text[]
AS 'MODULE_PATHNAME', 'twpg_unread_by_lots' LANGUAGE C IMMUTABLE PARALLEL SAFE COST 1000;
COMMENT ON FUNCTION unread(lots, text, text[])
IS 'what is unread of a text without readings on the plat of a lot table, apart from some phrases; empty if it has readings';

-- Drawings of the plat of a lot table, with its lots.

CREATE FUNCTION svg(lots lots, land land) RETURNS text
AS 'MODULE_PATHNAME', 'twpg_svg_by_lots' LANGUAGE C IMMUTABLE STRICT PARALLEL SAFE COST 2000;
COMMENT ON FUNCTION svg(lots, land) IS 'a drawing of the plat of a lot table, with the land, as an SVG document';

CREATE FUNCTION svg(lots lots, land land, section int4) RETURNS text
AS 'MODULE_PATHNAME', 'twpg_svg_of_section_by_lots' LANGUAGE C IMMUTABLE STRICT PARALLEL SAFE COST 2000;
COMMENT ON FUNCTION svg(lots, land, int4)
IS 'a drawing of a section of the plat of a lot table, with the land in it, as an SVG document';

CREATE FUNCTION svg(notes text, land land) RETURNS text
AS 'MODULE_PATHNAME', 'twpg_svg_by_notes' LANGUAGE C IMMUTABLE STRICT PARALLEL SAFE COST 1100;
COMMENT ON FUNCTION svg(text, land) IS 'a drawing of the plat of field notes, with the land, as an SVG document';

CREATE FUNCTION svg(notes text, land land, section int4) RETURNS text
AS 'MODULE_PATHNAME', 'twpg_svg_of_section_by_notes' LANGUAGE C IMMUTABLE STRICT PARALLEL SAFE COST 1100;
COMMENT ON FUNCTION svg(text, land, int4)
IS 'a drawing of a section of the plat of field notes, with the land in it, as an SVG document';
