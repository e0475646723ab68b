-- The extension township. docs/POSTGRESQL.md explains its types and functions.
-- unreleased: until the first release, this script may change.

\echo Use "CREATE EXTENSION township" to load this file. \quit

CREATE FUNCTION township_version() RETURNS text
AS 'MODULE_PATHNAME', 'twpg_version' LANGUAGE C IMMUTABLE STRICT PARALLEL SAFE;
COMMENT ON FUNCTION township_version() IS 'the version of the township library';

-- The type plat.

CREATE TYPE plat;

CREATE FUNCTION plat_in(cstring) RETURNS plat
AS 'MODULE_PATHNAME', 'twpg_plat_in' LANGUAGE C IMMUTABLE STRICT PARALLEL SAFE COST 100;

CREATE FUNCTION plat_out(plat) RETURNS cstring
AS 'MODULE_PATHNAME', 'twpg_plat_out' LANGUAGE C IMMUTABLE STRICT PARALLEL SAFE COST 50;

CREATE FUNCTION plat_recv(internal) RETURNS plat
AS 'MODULE_PATHNAME', 'twpg_plat_recv' LANGUAGE C IMMUTABLE STRICT PARALLEL SAFE COST 50;

CREATE FUNCTION plat_send(plat) RETURNS bytea
AS 'MODULE_PATHNAME', 'twpg_plat_send' LANGUAGE C IMMUTABLE STRICT PARALLEL SAFE COST 5;

CREATE TYPE plat (
    INPUT = plat_in,
    OUTPUT = plat_out,
    RECEIVE = plat_recv,
    SEND = plat_send,
    INTERNALLENGTH = 340,
    ALIGNMENT = int4,
    STORAGE = plain
);
COMMENT ON TYPE plat IS 'the plat of a township; its text is field notes (CSV)';

CREATE FUNCTION plat_cmp(plat, plat) RETURNS int4
AS 'MODULE_PATHNAME', 'twpg_plat_cmp' LANGUAGE C IMMUTABLE STRICT PARALLEL SAFE;

CREATE FUNCTION plat_eq(plat, plat) RETURNS bool
AS 'MODULE_PATHNAME', 'twpg_plat_eq' LANGUAGE C IMMUTABLE STRICT PARALLEL SAFE;

CREATE FUNCTION plat_ne(plat, plat) RETURNS bool
AS 'MODULE_PATHNAME', 'twpg_plat_ne' LANGUAGE C IMMUTABLE STRICT PARALLEL SAFE;

CREATE FUNCTION plat_lt(plat, plat) RETURNS bool
AS 'MODULE_PATHNAME', 'twpg_plat_lt' LANGUAGE C IMMUTABLE STRICT PARALLEL SAFE;

CREATE FUNCTION plat_le(plat, plat) RETURNS bool
AS 'MODULE_PATHNAME', 'twpg_plat_le' LANGUAGE C IMMUTABLE STRICT PARALLEL SAFE;

CREATE FUNCTION plat_gt(plat, plat) RETURNS bool
AS 'MODULE_PATHNAME', 'twpg_plat_gt' LANGUAGE C IMMUTABLE STRICT PARALLEL SAFE;

CREATE FUNCTION plat_ge(plat, plat) RETURNS bool
AS 'MODULE_PATHNAME', 'twpg_plat_ge' LANGUAGE C IMMUTABLE STRICT PARALLEL SAFE;

CREATE FUNCTION plat_hash(plat) RETURNS int4
AS 'MODULE_PATHNAME', 'twpg_plat_hash' LANGUAGE C IMMUTABLE STRICT PARALLEL SAFE;

CREATE FUNCTION plat_hash_extended(plat, int8) RETURNS int8
AS 'MODULE_PATHNAME', 'twpg_plat_hash_extended' LANGUAGE C IMMUTABLE STRICT PARALLEL SAFE;

CREATE OPERATOR = (
    LEFTARG = plat, RIGHTARG = plat, FUNCTION = plat_eq, COMMUTATOR = =, NEGATOR = <>,
    RESTRICT = eqsel, JOIN = eqjoinsel, HASHES, MERGES
);
CREATE OPERATOR <> (
    LEFTARG = plat, RIGHTARG = plat, FUNCTION = plat_ne, COMMUTATOR = <>, NEGATOR = =,
    RESTRICT = neqsel, JOIN = neqjoinsel
);
CREATE OPERATOR < (
    LEFTARG = plat, RIGHTARG = plat, FUNCTION = plat_lt, COMMUTATOR = >, NEGATOR = >=,
    RESTRICT = scalarltsel, JOIN = scalarltjoinsel
);
CREATE OPERATOR <= (
    LEFTARG = plat, RIGHTARG = plat, FUNCTION = plat_le, COMMUTATOR = >=, NEGATOR = >,
    RESTRICT = scalarlesel, JOIN = scalarlejoinsel
);
CREATE OPERATOR > (
    LEFTARG = plat, RIGHTARG = plat, FUNCTION = plat_gt, COMMUTATOR = <, NEGATOR = <=,
    RESTRICT = scalargtsel, JOIN = scalargtjoinsel
);
CREATE OPERATOR >= (
    LEFTARG = plat, RIGHTARG = plat, FUNCTION = plat_ge, COMMUTATOR = <=, NEGATOR = <,
    RESTRICT = scalargesel, JOIN = scalargejoinsel
);

CREATE OPERATOR CLASS plat_ops DEFAULT FOR TYPE plat USING btree AS
    OPERATOR 1 <, OPERATOR 2 <=, OPERATOR 3 =, OPERATOR 4 >=, OPERATOR 5 >,
    FUNCTION 1 plat_cmp(plat, plat);

CREATE OPERATOR CLASS plat_hash_ops DEFAULT FOR TYPE plat USING hash AS
    OPERATOR 1 =,
    FUNCTION 1 plat_hash(plat),
    FUNCTION 2 plat_hash_extended(plat, int8);

-- Answers on a plat.

CREATE FUNCTION township(plat plat) RETURNS text
AS 'MODULE_PATHNAME', 'twpg_plat_township' LANGUAGE C IMMUTABLE STRICT PARALLEL SAFE COST 5;
COMMENT ON FUNCTION township(plat) IS 'the designation of a township, such as T. 2 N., R. 3 W.';

CREATE FUNCTION acres(plat plat, description text, account text DEFAULT 'exact') RETURNS numeric
AS 'MODULE_PATHNAME', 'twpg_acres' LANGUAGE C IMMUTABLE STRICT PARALLEL SAFE COST 25;
COMMENT ON FUNCTION acres(plat, text, text) IS 'the acres of the land described, rounded once to hundredths';

CREATE FUNCTION acres_or_null(plat plat, description text, account text DEFAULT 'exact') RETURNS numeric
AS 'MODULE_PATHNAME', 'twpg_acres_or_null' LANGUAGE C IMMUTABLE STRICT PARALLEL SAFE COST 25;
COMMENT ON FUNCTION acres_or_null(plat, text, text) IS 'the acres of the land described, or NULL if it is refused';

CREATE FUNCTION area(
    plat plat, description text, account text DEFAULT 'exact',
    OUT numerator numeric, OUT denominator numeric
) AS 'MODULE_PATHNAME', 'twpg_area' LANGUAGE C IMMUTABLE STRICT PARALLEL SAFE COST 30;
COMMENT ON FUNCTION area(plat, text, text) IS 'the exact acreage of the land described, in lowest terms';

CREATE FUNCTION normal(plat plat, description text) RETURNS text
AS 'MODULE_PATHNAME', 'twpg_normal' LANGUAGE C IMMUTABLE STRICT PARALLEL SAFE COST 50;
COMMENT ON FUNCTION normal(plat, text) IS 'the canonical description of the land described';

CREATE FUNCTION refusal(
    plat plat, description text,
    OUT number int4, OUT at int4, OUT line_number int4, OUT column_number int4,
    OUT message text, OUT excerpt text, OUT help text
) AS 'MODULE_PATHNAME', 'twpg_refusal' LANGUAGE C IMMUTABLE STRICT PARALLEL SAFE COST 100;
COMMENT ON FUNCTION refusal(plat, text) IS 'why a description is refused, or NULL if it is accepted';

CREATE FUNCTION refusal(
    notes text,
    OUT number int4, OUT at int4, OUT line_number int4, OUT column_number int4,
    OUT message text, OUT excerpt text, OUT help text
) AS 'MODULE_PATHNAME', 'twpg_refusal_of_notes' LANGUAGE C IMMUTABLE STRICT PARALLEL SAFE COST 200;
COMMENT ON FUNCTION refusal(text) IS 'why field notes are refused, or NULL if they make a plat';

CREATE FUNCTION notes(
    plat plat, description text,
    OUT line_number int4, OUT column_number int4, OUT message text, OUT excerpt text, OUT help text
) AS 'MODULE_PATHNAME', 'twpg_notes' LANGUAGE C IMMUTABLE STRICT PARALLEL SAFE COST 100;
COMMENT ON FUNCTION notes(plat, text)
IS 'a place in an accepted description that can be read in two ways, or NULL if there is none';

-- The type land.

CREATE TYPE land;

CREATE FUNCTION land_in(cstring) RETURNS land
AS 'MODULE_PATHNAME', 'twpg_land_in' LANGUAGE C IMMUTABLE STRICT PARALLEL SAFE COST 40;

CREATE FUNCTION land_out(land) RETURNS cstring
AS 'MODULE_PATHNAME', 'twpg_land_out' LANGUAGE C IMMUTABLE STRICT PARALLEL SAFE COST 40;

CREATE FUNCTION land_recv(internal) RETURNS land
AS 'MODULE_PATHNAME', 'twpg_land_recv' LANGUAGE C IMMUTABLE STRICT PARALLEL SAFE COST 20;

CREATE FUNCTION land_send(land) RETURNS bytea
AS 'MODULE_PATHNAME', 'twpg_land_send' LANGUAGE C IMMUTABLE STRICT PARALLEL SAFE COST 2;

CREATE TYPE land (
    INPUT = land_in,
    OUTPUT = land_out,
    RECEIVE = land_recv,
    SEND = land_send,
    INTERNALLENGTH = variable,
    ALIGNMENT = int4,
    STORAGE = extended
);
COMMENT ON TYPE land IS 'land in a township; its text is a description with a heading';

CREATE FUNCTION land(plat plat, description text) RETURNS land
AS 'MODULE_PATHNAME', 'twpg_land_on_plat' LANGUAGE C IMMUTABLE STRICT PARALLEL SAFE COST 30;
COMMENT ON FUNCTION land(plat, text) IS 'the land described, in the township of a plat';

CREATE FUNCTION land(township text, description text) RETURNS land
AS 'MODULE_PATHNAME', 'twpg_land_in_township' LANGUAGE C IMMUTABLE STRICT PARALLEL SAFE COST 30;
COMMENT ON FUNCTION land(text, text) IS 'the land described, in a township such as T. 2 N., R. 3 W.';

CREATE FUNCTION land_or_null(township text, description text) RETURNS land
AS 'MODULE_PATHNAME', 'twpg_land_or_null' LANGUAGE C IMMUTABLE STRICT PARALLEL SAFE COST 30;
COMMENT ON FUNCTION land_or_null(text, text) IS 'the land described, or NULL if the description is refused';

CREATE FUNCTION refusal(
    township text, description text,
    OUT number int4, OUT at int4, OUT line_number int4, OUT column_number int4,
    OUT message text, OUT excerpt text, OUT help text
) AS 'MODULE_PATHNAME', 'twpg_refusal_in_township' LANGUAGE C IMMUTABLE STRICT PARALLEL SAFE COST 100;
COMMENT ON FUNCTION refusal(text, text) IS 'why a description is refused, or NULL if it is accepted';

CREATE FUNCTION township(land land) RETURNS text
AS 'MODULE_PATHNAME', 'twpg_land_township' LANGUAGE C IMMUTABLE STRICT PARALLEL SAFE COST 5;
COMMENT ON FUNCTION township(land) IS 'the designation of a township, such as T. 2 N., R. 3 W.';

CREATE FUNCTION isempty(land land) RETURNS bool
AS 'MODULE_PATHNAME', 'twpg_land_is_empty' LANGUAGE C IMMUTABLE STRICT PARALLEL SAFE;
COMMENT ON FUNCTION isempty(land) IS 'whether this is no land at all';

CREATE FUNCTION acres(plat plat, land land, account text DEFAULT 'exact') RETURNS numeric
AS 'MODULE_PATHNAME', 'twpg_acres_of_land' LANGUAGE C IMMUTABLE STRICT PARALLEL SAFE COST 20;
COMMENT ON FUNCTION acres(plat, land, text) IS 'the acres of land, rounded once to hundredths';

CREATE FUNCTION area(
    plat plat, land land, account text DEFAULT 'exact',
    OUT numerator numeric, OUT denominator numeric
) AS 'MODULE_PATHNAME', 'twpg_area_of_land' LANGUAGE C IMMUTABLE STRICT PARALLEL SAFE COST 25;
COMMENT ON FUNCTION area(plat, land, text) IS 'the exact acreage of land, in lowest terms';

-- Lands as sets of places.

CREATE FUNCTION land_union(land, land) RETURNS land
AS 'MODULE_PATHNAME', 'twpg_land_union' LANGUAGE C IMMUTABLE STRICT PARALLEL SAFE COST 20;

CREATE FUNCTION land_intersection(land, land) RETURNS land
AS 'MODULE_PATHNAME', 'twpg_land_intersection' LANGUAGE C IMMUTABLE STRICT PARALLEL SAFE COST 20;

CREATE FUNCTION land_difference(land, land) RETURNS land
AS 'MODULE_PATHNAME', 'twpg_land_difference' LANGUAGE C IMMUTABLE STRICT PARALLEL SAFE COST 20;

CREATE FUNCTION land_overlaps(land, land) RETURNS bool
AS 'MODULE_PATHNAME', 'twpg_land_overlaps' LANGUAGE C IMMUTABLE STRICT PARALLEL SAFE COST 10;

CREATE FUNCTION land_contains(land, land) RETURNS bool
AS 'MODULE_PATHNAME', 'twpg_land_contains' LANGUAGE C IMMUTABLE STRICT PARALLEL SAFE COST 10;

CREATE FUNCTION land_contained(land, land) RETURNS bool
AS 'MODULE_PATHNAME', 'twpg_land_contained' LANGUAGE C IMMUTABLE STRICT PARALLEL SAFE COST 10;

CREATE FUNCTION land_restrictsel(internal, oid, internal, int4) RETURNS float8
AS 'MODULE_PATHNAME', 'twpg_land_restrictsel' LANGUAGE C STABLE STRICT PARALLEL SAFE;

CREATE FUNCTION land_joinsel(internal, oid, internal, int2, internal) RETURNS float8
AS 'MODULE_PATHNAME', 'twpg_land_joinsel' LANGUAGE C STABLE STRICT PARALLEL SAFE;

CREATE OPERATOR + (LEFTARG = land, RIGHTARG = land, FUNCTION = land_union, COMMUTATOR = +);
COMMENT ON OPERATOR + (land, land) IS 'the land in either';

CREATE OPERATOR * (LEFTARG = land, RIGHTARG = land, FUNCTION = land_intersection, COMMUTATOR = *);
COMMENT ON OPERATOR * (land, land) IS 'the land in both';

CREATE OPERATOR - (LEFTARG = land, RIGHTARG = land, FUNCTION = land_difference);
COMMENT ON OPERATOR - (land, land) IS 'the land in the first that is not in the second';

CREATE OPERATOR && (
    LEFTARG = land, RIGHTARG = land, FUNCTION = land_overlaps, COMMUTATOR = &&,
    RESTRICT = land_restrictsel, JOIN = land_joinsel
);
COMMENT ON OPERATOR && (land, land) IS 'whether they share land';

CREATE OPERATOR @> (
    LEFTARG = land, RIGHTARG = land, FUNCTION = land_contains, COMMUTATOR = <@,
    RESTRICT = land_restrictsel, JOIN = land_joinsel
);
COMMENT ON OPERATOR @> (land, land) IS 'whether the first contains the second';

CREATE OPERATOR <@ (
    LEFTARG = land, RIGHTARG = land, FUNCTION = land_contained, COMMUTATOR = @>,
    RESTRICT = land_restrictsel, JOIN = land_joinsel
);
COMMENT ON OPERATOR <@ (land, land) IS 'whether the second contains the first';

CREATE AGGREGATE union_of(land) (
    SFUNC = land_union, STYPE = land, COMBINEFUNC = land_union, PARALLEL = SAFE
);
COMMENT ON AGGREGATE union_of(land) IS 'the land in any of them';

CREATE FUNCTION land_overlaps_add(internal, anyelement, land) RETURNS internal
AS 'MODULE_PATHNAME', 'twpg_overlaps_add' LANGUAGE C IMMUTABLE PARALLEL SAFE;

CREATE FUNCTION land_overlaps_pairs(internal, anyelement, land) RETURNS anyarray
AS 'MODULE_PATHNAME', 'twpg_overlaps_pairs' LANGUAGE C IMMUTABLE PARALLEL SAFE;

CREATE AGGREGATE overlaps(id anyelement, land land) (
    SFUNC = land_overlaps_add, STYPE = internal, FINALFUNC = land_overlaps_pairs, FINALFUNC_EXTRA, PARALLEL = SAFE
);
COMMENT ON AGGREGATE overlaps(anyelement, land) IS 'the pairs of ids whose lands share land';

-- The order of lands, for indexes and sorting.

CREATE FUNCTION land_cmp(land, land) RETURNS int4
AS 'MODULE_PATHNAME', 'twpg_land_cmp' LANGUAGE C IMMUTABLE STRICT PARALLEL SAFE;

CREATE FUNCTION land_eq(land, land) RETURNS bool
AS 'MODULE_PATHNAME', 'twpg_land_eq' LANGUAGE C IMMUTABLE STRICT PARALLEL SAFE;

CREATE FUNCTION land_ne(land, land) RETURNS bool
AS 'MODULE_PATHNAME', 'twpg_land_ne' LANGUAGE C IMMUTABLE STRICT PARALLEL SAFE;

CREATE FUNCTION land_lt(land, land) RETURNS bool
AS 'MODULE_PATHNAME', 'twpg_land_lt' LANGUAGE C IMMUTABLE STRICT PARALLEL SAFE;

CREATE FUNCTION land_le(land, land) RETURNS bool
AS 'MODULE_PATHNAME', 'twpg_land_le' LANGUAGE C IMMUTABLE STRICT PARALLEL SAFE;

CREATE FUNCTION land_gt(land, land) RETURNS bool
AS 'MODULE_PATHNAME', 'twpg_land_gt' LANGUAGE C IMMUTABLE STRICT PARALLEL SAFE;

CREATE FUNCTION land_ge(land, land) RETURNS bool
AS 'MODULE_PATHNAME', 'twpg_land_ge' LANGUAGE C IMMUTABLE STRICT PARALLEL SAFE;

CREATE FUNCTION land_hash(land) RETURNS int4
AS 'MODULE_PATHNAME', 'twpg_land_hash' LANGUAGE C IMMUTABLE STRICT PARALLEL SAFE;

CREATE FUNCTION land_hash_extended(land, int8) RETURNS int8
AS 'MODULE_PATHNAME', 'twpg_land_hash_extended' LANGUAGE C IMMUTABLE STRICT PARALLEL SAFE;

CREATE OPERATOR = (
    LEFTARG = land, RIGHTARG = land, FUNCTION = land_eq, COMMUTATOR = =, NEGATOR = <>,
    RESTRICT = eqsel, JOIN = eqjoinsel, HASHES, MERGES
);
CREATE OPERATOR <> (
    LEFTARG = land, RIGHTARG = land, FUNCTION = land_ne, COMMUTATOR = <>, NEGATOR = =,
    RESTRICT = neqsel, JOIN = neqjoinsel
);
CREATE OPERATOR < (
    LEFTARG = land, RIGHTARG = land, FUNCTION = land_lt, COMMUTATOR = >, NEGATOR = >=,
    RESTRICT = scalarltsel, JOIN = scalarltjoinsel
);
CREATE OPERATOR <= (
    LEFTARG = land, RIGHTARG = land, FUNCTION = land_le, COMMUTATOR = >=, NEGATOR = >,
    RESTRICT = scalarlesel, JOIN = scalarlejoinsel
);
CREATE OPERATOR > (
    LEFTARG = land, RIGHTARG = land, FUNCTION = land_gt, COMMUTATOR = <, NEGATOR = <=,
    RESTRICT = scalargtsel, JOIN = scalargtjoinsel
);
CREATE OPERATOR >= (
    LEFTARG = land, RIGHTARG = land, FUNCTION = land_ge, COMMUTATOR = <=, NEGATOR = <,
    RESTRICT = scalargesel, JOIN = scalargejoinsel
);

CREATE OPERATOR CLASS land_ops DEFAULT FOR TYPE land USING btree AS
    OPERATOR 1 <, OPERATOR 2 <=, OPERATOR 3 =, OPERATOR 4 >=, OPERATOR 5 >,
    FUNCTION 1 land_cmp(land, land);

CREATE OPERATOR CLASS land_hash_ops DEFAULT FOR TYPE land USING hash AS
    OPERATOR 1 =,
    FUNCTION 1 land_hash(land),
    FUNCTION 2 land_hash_extended(land, int8);

-- The index that finds overlaps.

CREATE FUNCTION land_gist_consistent(internal, land, int2, oid, internal) RETURNS bool
AS 'MODULE_PATHNAME', 'twpg_land_consistent' LANGUAGE C IMMUTABLE STRICT PARALLEL SAFE;

CREATE FUNCTION land_gist_union(internal, internal) RETURNS bytea
AS 'MODULE_PATHNAME', 'twpg_land_key_union' LANGUAGE C IMMUTABLE STRICT PARALLEL SAFE;

CREATE FUNCTION land_gist_compress(internal) RETURNS internal
AS 'MODULE_PATHNAME', 'twpg_land_compress' LANGUAGE C IMMUTABLE STRICT PARALLEL SAFE;

CREATE FUNCTION land_gist_penalty(internal, internal, internal) RETURNS internal
AS 'MODULE_PATHNAME', 'twpg_land_penalty' LANGUAGE C IMMUTABLE STRICT PARALLEL SAFE;

CREATE FUNCTION land_gist_picksplit(internal, internal) RETURNS internal
AS 'MODULE_PATHNAME', 'twpg_land_picksplit' LANGUAGE C IMMUTABLE STRICT PARALLEL SAFE;

CREATE FUNCTION land_gist_same(bytea, bytea, internal) RETURNS internal
AS 'MODULE_PATHNAME', 'twpg_land_key_same' LANGUAGE C IMMUTABLE STRICT PARALLEL SAFE;

CREATE FUNCTION land_gist_sortsupport(internal) RETURNS void
AS 'MODULE_PATHNAME', 'twpg_land_key_sortsupport' LANGUAGE C IMMUTABLE STRICT PARALLEL SAFE;

CREATE OPERATOR CLASS land_gist_ops DEFAULT FOR TYPE land USING gist AS
    OPERATOR 3 &&, OPERATOR 6 =, OPERATOR 7 @>, OPERATOR 8 <@,
    FUNCTION 1 land_gist_consistent(internal, land, int2, oid, internal),
    FUNCTION 2 land_gist_union(internal, internal),
    FUNCTION 3 land_gist_compress(internal),
    FUNCTION 5 land_gist_penalty(internal, internal, internal),
    FUNCTION 6 land_gist_picksplit(internal, internal),
    FUNCTION 7 land_gist_same(bytea, bytea, internal),
    STORAGE bytea;

-- Since version 14, the server can sort rows to build such an index.
DO $$
BEGIN
    IF current_setting('server_version_num')::int >= 140000 THEN
        ALTER OPERATOR FAMILY land_gist_ops USING gist ADD FUNCTION 11 (land, land) land_gist_sortsupport(internal);
    END IF;
END $$;

-- The type lots.

CREATE TYPE lots;

CREATE FUNCTION lots_in(cstring) RETURNS lots
AS 'MODULE_PATHNAME', 'twpg_lots_in' LANGUAGE C IMMUTABLE STRICT PARALLEL SAFE COST 50;

CREATE FUNCTION lots_out(lots) RETURNS cstring
AS 'MODULE_PATHNAME', 'twpg_lots_out' LANGUAGE C IMMUTABLE STRICT PARALLEL SAFE COST 20;

CREATE FUNCTION lots_recv(internal) RETURNS lots
AS 'MODULE_PATHNAME', 'twpg_lots_recv' LANGUAGE C IMMUTABLE STRICT PARALLEL SAFE COST 20;

CREATE FUNCTION lots_send(lots) RETURNS bytea
AS 'MODULE_PATHNAME', 'twpg_lots_send' LANGUAGE C IMMUTABLE STRICT PARALLEL SAFE COST 5;

CREATE TYPE lots (
    INPUT = lots_in,
    OUTPUT = lots_out,
    RECEIVE = lots_recv,
    SEND = lots_send,
    INTERNALLENGTH = variable,
    ALIGNMENT = int4,
    STORAGE = extended
);
COMMENT ON TYPE lots
IS 'the lots of an approved plat, and the acreage that it returns for each; its text is a lot table (CSV)';

CREATE FUNCTION lots_eq(lots, lots) RETURNS bool
AS 'MODULE_PATHNAME', 'twpg_lots_eq' LANGUAGE C IMMUTABLE STRICT PARALLEL SAFE;

CREATE FUNCTION lots_ne(lots, lots) RETURNS bool
AS 'MODULE_PATHNAME', 'twpg_lots_ne' LANGUAGE C IMMUTABLE STRICT PARALLEL SAFE;

CREATE OPERATOR = (
    LEFTARG = lots, RIGHTARG = lots, FUNCTION = lots_eq, COMMUTATOR = =, NEGATOR = <>,
    RESTRICT = eqsel, JOIN = eqjoinsel
);
CREATE OPERATOR <> (
    LEFTARG = lots, RIGHTARG = lots, FUNCTION = lots_ne, COMMUTATOR = <>, NEGATOR = =,
    RESTRICT = neqsel, JOIN = neqjoinsel
);

CREATE FUNCTION township(lots lots) RETURNS text
AS 'MODULE_PATHNAME', 'twpg_lots_township' LANGUAGE C IMMUTABLE STRICT PARALLEL SAFE COST 5;
COMMENT ON FUNCTION township(lots) IS 'the designation of a township, such as T. 2 N., R. 3 W.';

CREATE FUNCTION acres(lots lots, description text) RETURNS numeric
AS 'MODULE_PATHNAME', 'twpg_acres_by_lots' LANGUAGE C IMMUTABLE STRICT PARALLEL SAFE COST 25;
COMMENT ON FUNCTION acres(lots, text) IS 'the acres of the land described, by the returned acreage of lots';

CREATE FUNCTION acres_or_null(lots lots, description text) RETURNS numeric
AS 'MODULE_PATHNAME', 'twpg_acres_by_lots_or_null' LANGUAGE C IMMUTABLE STRICT PARALLEL SAFE COST 25;
COMMENT ON FUNCTION acres_or_null(lots, text)
IS 'the acres of the land described, by the returned acreage of lots, or NULL if it is refused';

CREATE FUNCTION area(lots lots, description text, OUT numerator numeric, OUT denominator numeric)
AS 'MODULE_PATHNAME', 'twpg_area_by_lots' LANGUAGE C IMMUTABLE STRICT PARALLEL SAFE COST 30;
COMMENT ON FUNCTION area(lots, text)
IS 'the exact acreage of the land described, by the returned acreage of lots, in lowest terms';

CREATE FUNCTION acres(lots lots, land land) RETURNS numeric
AS 'MODULE_PATHNAME', 'twpg_acres_of_land_by_lots' LANGUAGE C IMMUTABLE STRICT PARALLEL SAFE COST 20;
COMMENT ON FUNCTION acres(lots, land) IS 'the acres of land, by the returned acreage of lots';

CREATE FUNCTION area(lots lots, land land, OUT numerator numeric, OUT denominator numeric)
AS 'MODULE_PATHNAME', 'twpg_area_of_land_by_lots' LANGUAGE C IMMUTABLE STRICT PARALLEL SAFE COST 25;
COMMENT ON FUNCTION area(lots, land)
IS 'the exact acreage of land, by the returned acreage of lots, in lowest terms';
