-- What version 1.1 of the extension township adds to version 1.0.0. Nothing that was there changes, and neither do the
-- bytes of stored values.
-- unreleased: until the first release, this script may change.

\echo Use "ALTER EXTENSION township UPDATE TO '1.1'" to load this file. \quit

-- Land, or NULL, and its acreage, or NULL.

CREATE FUNCTION land_or_null(plat plat, description text) RETURNS land
AS 'MODULE_PATHNAME', 'twpg_land_on_plat_or_null' LANGUAGE C IMMUTABLE STRICT PARALLEL SAFE COST 30;
COMMENT ON FUNCTION land_or_null(plat, text)
IS 'the land described, in the township of a plat, or NULL if the description is refused';

CREATE FUNCTION acres_or_null(plat plat, land land, account text DEFAULT 'exact') RETURNS numeric
AS 'MODULE_PATHNAME', 'twpg_acres_of_land_or_null' LANGUAGE C IMMUTABLE STRICT PARALLEL SAFE COST 20;
COMMENT ON FUNCTION acres_or_null(plat, land, text) IS 'the acres of land, or NULL if it is in another township, or on a plat with other lots';

CREATE FUNCTION acres_or_null(lots lots, land land) RETURNS numeric
AS 'MODULE_PATHNAME', 'twpg_acres_of_land_by_lots_or_null' LANGUAGE C IMMUTABLE STRICT PARALLEL SAFE COST 20;
COMMENT ON FUNCTION acres_or_null(lots, land)
IS 'the acres of land, by the returned acreage of lots, or NULL if the table lacks one of its lots or is of another plat';

-- Why a lot table gives no acreage.

CREATE FUNCTION refusal(
    lots lots, description text,
    OUT number int4, OUT at int4, OUT line_number int4, OUT column_number int4,
    OUT message text, OUT excerpt text, OUT help text
) AS 'MODULE_PATHNAME', 'twpg_refusal_by_lots' LANGUAGE C IMMUTABLE STRICT PARALLEL SAFE COST 100;
COMMENT ON FUNCTION refusal(lots, text)
IS 'why a description is refused by a lot table, or NULL if it is accepted';

CREATE FUNCTION refusal(
    lots lots, land land,
    OUT number int4, OUT at int4, OUT line_number int4, OUT column_number int4,
    OUT message text, OUT excerpt text, OUT help text
) AS 'MODULE_PATHNAME', 'twpg_refusal_of_land_by_lots' LANGUAGE C IMMUTABLE STRICT PARALLEL SAFE COST 50;
COMMENT ON FUNCTION refusal(lots, land) IS 'why land has no acreage by a lot table, or NULL if it has';

-- The parts of land.

CREATE FUNCTION parts(land land, OUT section int4, OUT lot int4, OUT part land) RETURNS SETOF record
AS 'MODULE_PATHNAME', 'twpg_parts' LANGUAGE C IMMUTABLE STRICT PARALLEL SAFE COST 50 ROWS 4;
COMMENT ON FUNCTION parts(land) IS 'the parts of land that its text names: lots, and other parts of sections';

-- How a text would be written as a description: a row for each reading, or one without a reading. Most texts have one.

CREATE FUNCTION suggest(description text, OUT reading text, OUT changes int4, OUT assumes text[], OUT reason text)
RETURNS SETOF record
AS 'MODULE_PATHNAME', 'twpg_suggest' LANGUAGE C IMMUTABLE STRICT PARALLEL SAFE COST 500 ROWS 1;
COMMENT ON FUNCTION suggest(text) IS 'the descriptions that a text can be read as, or a row without one';

CREATE FUNCTION suggest(
    plat plat, description text, account text DEFAULT 'exact',
    OUT reading text, OUT acres numeric, OUT changes int4, OUT assumes text[], OUT reason text
) RETURNS SETOF record
AS 'MODULE_PATHNAME', 'twpg_suggest_on_plat' LANGUAGE C IMMUTABLE STRICT PARALLEL SAFE COST 500 ROWS 1;
COMMENT ON FUNCTION suggest(plat, text, text)
IS 'the descriptions that a text can be read as, with their acres, or a row without one';
