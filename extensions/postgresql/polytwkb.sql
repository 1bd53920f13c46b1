\echo Use "CREATE EXTENSION polytwkb" to load this file. \quit

-- NULL for bytes that are exactly one blob, or the fault: "byte 4: coordinate out of range".
CREATE FUNCTION twkb_fault(blob bytea) RETURNS text
    AS 'MODULE_PATHNAME', 'twkb_fault' LANGUAGE C IMMUTABLE STRICT PARALLEL SAFE COST 50;

-- The polyline of a point or a linestring, and NULL for other kinds.
CREATE FUNCTION twkb_polyline(blob bytea) RETURNS text
    AS 'MODULE_PATHNAME', 'twkb_polyline' LANGUAGE C IMMUTABLE STRICT PARALLEL SAFE COST 100;

-- The geometry as GeoJSON, with exact decimals.
CREATE FUNCTION twkb_geojson(blob bytea) RETURNS text
    AS 'MODULE_PATHNAME', 'twkb_geojson' LANGUAGE C IMMUTABLE STRICT PARALLEL SAFE COST 200;

-- The least box around all points, in degrees; NULL if there are none. A GiST index takes it.
CREATE FUNCTION twkb_box(blob bytea) RETURNS box
    AS 'MODULE_PATHNAME', 'twkb_box_of_blob' LANGUAGE C IMMUTABLE STRICT PARALLEL SAFE COST 100;

-- The geometry as WKB. Ids are refused, or with 'drop' left out.
CREATE FUNCTION twkb_wkb(blob bytea, ids text DEFAULT 'refuse') RETURNS bytea
    AS 'MODULE_PATHNAME', 'twkb_wkb_of_blob' LANGUAGE C IMMUTABLE STRICT PARALLEL SAFE COST 100;

-- The blob of WKB or EWKB, whose coordinates are rounded to a precision.
CREATE FUNCTION twkb_from_wkb(wkb bytea, "precision" int, style text DEFAULT 'full') RETURNS bytea
    AS 'MODULE_PATHNAME', 'twkb_from_wkb' LANGUAGE C IMMUTABLE STRICT PARALLEL SAFE COST 100;

-- The rows of the blob's table, in their order.
CREATE FUNCTION twkb_rows(blob bytea, OUT depth int, OUT kind text, OUT id bigint, OUT "precision" int, OUT polyline text)
    RETURNS SETOF record
    AS 'MODULE_PATHNAME', 'twkb_rows' LANGUAGE C IMMUTABLE STRICT PARALLEL SAFE COST 100 ROWS 10;

-- The headers of the blob, in their order.
CREATE FUNCTION twkb_show(blob bytea, OUT level int, OUT "offset" bigint, OUT kind text, OUT "precision" int,
        OUT metadata int, OUT length bigint, OUT points bigint)
    RETURNS SETOF record
    AS 'MODULE_PATHNAME', 'twkb_show' LANGUAGE C IMMUTABLE STRICT PARALLEL SAFE COST 100 ROWS 10;

-- The blob of one row.
CREATE FUNCTION twkb_pack(kind text, "precision" int, polyline text) RETURNS bytea
    AS 'MODULE_PATHNAME', 'twkb_pack_one' LANGUAGE C IMMUTABLE STRICT PARALLEL SAFE COST 100;

CREATE FUNCTION twkb_pack_step(internal, depth int, kind text, id bigint, "precision" int, polyline text) RETURNS internal
    AS 'MODULE_PATHNAME', 'twkb_pack_step' LANGUAGE C IMMUTABLE PARALLEL SAFE COST 50;

CREATE FUNCTION twkb_pack_step(internal, depth int, kind text, id bigint, "precision" int, polyline text, style text)
    RETURNS internal
    AS 'MODULE_PATHNAME', 'twkb_pack_step' LANGUAGE C IMMUTABLE PARALLEL SAFE COST 50;

CREATE FUNCTION twkb_pack_final(internal) RETURNS bytea
    AS 'MODULE_PATHNAME', 'twkb_pack_final' LANGUAGE C IMMUTABLE PARALLEL SAFE COST 50;

-- The blob of rows, in their order: twkb_pack(depth, kind, id, "precision", polyline ORDER BY n).
CREATE AGGREGATE twkb_pack(depth int, kind text, id bigint, "precision" int, polyline text) (
    SFUNC = twkb_pack_step, STYPE = internal, FINALFUNC = twkb_pack_final, PARALLEL = SAFE
);

-- The same in a style, 'full' or 'plain'.
CREATE AGGREGATE twkb_pack(depth int, kind text, id bigint, "precision" int, polyline text, style text) (
    SFUNC = twkb_pack_step, STYPE = internal, FINALFUNC = twkb_pack_final, PARALLEL = SAFE
);

COMMENT ON FUNCTION twkb_fault(bytea) IS 'NULL if the value is exactly one TWKB blob, otherwise byte and reason of its first fault';
COMMENT ON FUNCTION twkb_polyline(bytea) IS 'the encoded polyline of a point or linestring in TWKB, NULL for other kinds';
COMMENT ON FUNCTION twkb_geojson(bytea) IS 'a geometry in TWKB as text of GeoJSON';
COMMENT ON FUNCTION twkb_box(bytea) IS 'the least box around the points of a geometry in TWKB, in degrees, NULL if it has none';
COMMENT ON FUNCTION twkb_wkb(bytea, text) IS 'a geometry in TWKB as WKB; ids are refused, or with ''drop'' left out';
COMMENT ON FUNCTION twkb_from_wkb(bytea, int, text) IS 'a geometry in WKB or EWKB as TWKB of a precision, in the style ''full'' or ''plain''';
COMMENT ON FUNCTION twkb_rows(bytea) IS 'the rows of a geometry in TWKB, with their encoded polylines';
COMMENT ON FUNCTION twkb_show(bytea) IS 'the headers of a geometry in TWKB';
COMMENT ON FUNCTION twkb_pack(text, int, text) IS 'TWKB of one row: kind, precision, encoded polyline';
COMMENT ON FUNCTION twkb_pack_step(internal, int, text, bigint, int, text) IS 'a part of the aggregate twkb_pack';
COMMENT ON FUNCTION twkb_pack_step(internal, int, text, bigint, int, text, text) IS 'a part of the aggregate twkb_pack';
COMMENT ON FUNCTION twkb_pack_final(internal) IS 'a part of the aggregate twkb_pack';
COMMENT ON AGGREGATE twkb_pack(int, text, bigint, int, text) IS 'TWKB of the rows of one geometry, in their order';
COMMENT ON AGGREGATE twkb_pack(int, text, bigint, int, text, text) IS 'TWKB of the rows of one geometry, in the style ''full'' or ''plain''';
