/** The numbers of include/polytwkb.h by which a report says how a call ended. scripts/reasons.py makes them. */

/** How a call ended. */
export const Status = {
    DONE: 0,
    REFUSED: 1,
    ARGUMENTS: 2,
    DEVICE: 3,
    MEMORY: 4,
    TOO_SMALL: 5,
};

/** Why an input is refused. */
export const Reason = {
    BAD_HEADER: 1,
    FIELD_COUNT: 2,
    BAD_DEPTH: 3,
    BAD_KIND: 4,
    BAD_PLACE: 5,
    TOO_DEEP: 6,
    TOO_MANY_ROWS: 7,
    BAD_ID: 8,
    ID_NOT_ALLOWED: 9,
    MIXED_IDS: 10,
    BAD_PRECISION: 11,
    PRECISION_MISSING: 12,
    PRECISION_NOT_ALLOWED: 13,
    POLYLINE_NOT_ALLOWED: 14,
    POINT_COUNT: 16,
    POLYLINE_BAD_CHARACTER: 21,
    POLYLINE_CUT: 22,
    POLYLINE_TOO_LONG: 23,
    POLYLINE_PADDED: 24,
    POLYLINE_HALF: 25,
    POLYLINE_RANGE: 26,
    POLYLINE_TOO_MANY: 27,
    BLOB_TRUNCATED: 41,
    BLOB_BAD_TYPE: 42,
    BLOB_EXTRA_DIMENSIONS: 43,
    BLOB_BAD_VARINT: 44,
    BLOB_TOO_DEEP: 45,
    BLOB_TOO_MANY_NODES: 46,
    BLOB_TOO_MANY_POINTS: 47,
    BLOB_RANGE: 48,
    BLOB_SIZE_MISMATCH: 49,
    TOO_LONG: 61,
    TOO_MANY_RECORDS: 62,
    POINTS_MISSING: 71,
    POINTS_LEFT: 72,
    NO_SUCH_COLUMN: 81,
    COLUMN_TWICE: 82,
    WRONG_FIELD_COUNT: 83,
    MISSING_VALUE: 84,
    NO_LINESTRING: 91,
    ANOTHER_PRECISION: 92,
};

/** The first reason of each kind: those of a record, of a polyline, of a blob, of a whole input and of arrays. */
export const First = {
    ROW: 1,
    POLYLINE: 21,
    BLOB: 41,
    WHOLE: 61,
    ARRAY: 71,
    CSV: 81,
    LINE: 91,
};
