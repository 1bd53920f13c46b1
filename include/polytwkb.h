/*
 * polytwkb: geometries as streams of TWKB blobs, as tables of encoded polylines, and as arrays of rows and points; from
 * a buffer to a buffer.
 *
 *   polytwkb_convert                  a conversion by its number, any of POLYTWKB_PACK and so on
 *   polytwkb_convert_column           a column of a CSV to a stream of blobs, and back
 *   polytwkb_pack, polytwkb_unpack    a table (CSV) to a stream of blobs, and back
 *   polytwkb_write, polytwkb_read     arrays of rows and points to a stream of blobs, and back
 *   polytwkb_show, polytwkb_measure   the headers of a stream; the size of an output
 *   polytwkb_encode, polytwkb_decode  points to an encoded polyline, and back
 *   polytwkb_round                    degrees to coordinates
 *
 * One call converts a whole table, a whole stream or all rows, of any number of geometries. Give it many: a call has
 * a price of its own, most of all from another language.
 *
 * Coordinates. A coordinate is a whole number of units of 10^-precision, and the precision is that of its geometry,
 * -8 to 7. If the units are of degrees, x is a longitude and y a latitude: at precision 5 the x of 13.3777 degrees is
 * 1337770. polytwkb_round makes coordinates of degrees. A coordinate below 2^53 in size is, in degrees, (double)x / 1e5
 * at precision 5, (double)x / 1e7 at precision 7, (double)x * 1e2 at precision -2.
 *
 * The library is proved: what each call writes, and what its report says, is the contract of its function in
 * crates/twkb_c. It keeps nothing between calls, opens no file and prints nothing. It takes memory by malloc, realloc
 * and free, for one geometry at a time, and gives all of it back. To pack it also takes memory for one record and its
 * points: for up to 8 MiB of them while the geometry before it is held, or for all if that is a single point. Calls in
 * several threads at once do not disturb one another if their outputs are apart. No call may be made from a signal
 * handler.
 *
 * Of the caller's side nothing is checked:
 * - A length counts the items of a buffer: bytes, rows, points or numbers. All of them together have at most 2^63 - 1
 *   bytes, so SIZE_MAX is the room of no buffer.
 * - No output overlaps an input or another output. polytwkb_read has three outputs and polytwkb_write two, and
 *   polytwkb_round does not round in place.
 * - Rows, points, doubles and 64-bit integers are aligned to 8 bytes.
 * - While a call runs, no one else writes to its inputs, or reads or writes its outputs.
 * - A call has 256 KiB of stack left. It takes some 120 kB at most.
 * - A pointer to a buffer of length 0 may be NULL in C and C++. A binding that calls the symbols of the shared library
 *   and does not read this header passes a pointer that is not NULL for such a buffer too.
 */
#ifndef POLYTWKB_H
#define POLYTWKB_H

#include <stddef.h>
#include <stdint.h>

/* The version of this header. polytwkb_version gives that of the library. */
#define POLYTWKB_VERSION "0.1.0"
#define POLYTWKB_VERSION_MAJOR 0
#define POLYTWKB_VERSION_MINOR 1
#define POLYTWKB_VERSION_PATCH 0

#ifdef __cplusplus
extern "C" {
#endif

/*
 * The status of a call. 0, 1, 3 and 4 are those of the command. POLYTWKB_ARGUMENTS comes before any other. If the
 * input is refused and the output is too small for what comes before that, polytwkb_encode and polytwkb_decode answer
 * POLYTWKB_REFUSED, and all others POLYTWKB_TOO_SMALL.
 */
#define POLYTWKB_DONE 0u      /* all was converted */
#define POLYTWKB_REFUSED 1u   /* the input is refused: reason and place say why and where */
#define POLYTWKB_ARGUMENTS 2u /* a limit, style, flag, conversion or precision is out of range; nothing was done */
#define POLYTWKB_DEVICE 3u    /* the input could not be read; this has never been seen with a buffer */
#define POLYTWKB_MEMORY 4u    /* memory was refused */
#define POLYTWKB_TOO_SMALL 5u /* the output is too small: needed is the size needed; reason and place are 0 */

/* Why a record of a table is refused: place is the record, counted from 1, which is the header. */
#define POLYTWKB_BAD_HEADER 1u
#define POLYTWKB_FIELD_COUNT 2u
#define POLYTWKB_BAD_DEPTH 3u
#define POLYTWKB_BAD_KIND 4u
#define POLYTWKB_BAD_PLACE 5u
#define POLYTWKB_TOO_DEEP 6u
#define POLYTWKB_TOO_MANY_ROWS 7u
#define POLYTWKB_BAD_ID 8u
#define POLYTWKB_ID_NOT_ALLOWED 9u
#define POLYTWKB_MIXED_IDS 10u
#define POLYTWKB_BAD_PRECISION 11u
#define POLYTWKB_PRECISION_MISSING 12u
#define POLYTWKB_PRECISION_NOT_ALLOWED 13u
#define POLYTWKB_POLYLINE_NOT_ALLOWED 14u
#define POLYTWKB_POINT_COUNT 16u

/* What is wrong with the polyline of a record: text_offset is the byte of the polyline. */
#define POLYTWKB_POLYLINE_BAD_CHARACTER 21u
#define POLYTWKB_POLYLINE_CUT 22u
#define POLYTWKB_POLYLINE_TOO_LONG 23u
#define POLYTWKB_POLYLINE_PADDED 24u
#define POLYTWKB_POLYLINE_HALF 25u
#define POLYTWKB_POLYLINE_RANGE 26u
#define POLYTWKB_POLYLINE_TOO_MANY 27u

/* Why an item of a blob is refused: place is where it begins, in bytes from the start of the stream. */
#define POLYTWKB_BLOB_TRUNCATED 41u
#define POLYTWKB_BLOB_BAD_TYPE 42u
#define POLYTWKB_BLOB_EXTRA_DIMENSIONS 43u
#define POLYTWKB_BLOB_BAD_VARINT 44u
#define POLYTWKB_BLOB_TOO_DEEP 45u
#define POLYTWKB_BLOB_TOO_MANY_NODES 46u
#define POLYTWKB_BLOB_TOO_MANY_POINTS 47u
#define POLYTWKB_BLOB_RANGE 48u
#define POLYTWKB_BLOB_SIZE_MISMATCH 49u

/* The whole input or output: place is 0. */
#define POLYTWKB_TOO_LONG 61u         /* more than 2^62 bytes */
#define POLYTWKB_TOO_MANY_RECORDS 62u /* 2^32 records */

/* Why the points of polytwkb_write are refused: place is the row, from 0. Its other reasons are among 4 to 27. */
#define POLYTWKB_POINTS_MISSING 71u /* the row has more points than are left in the list */
#define POLYTWKB_POINTS_LEFT 72u    /* points are left after the last row: place is the number of rows */

/* Why a record of a CSV is refused: place is the record, counted from 1, which is the header. */
#define POLYTWKB_NO_SUCH_COLUMN 81u
#define POLYTWKB_COLUMN_TWICE 82u
#define POLYTWKB_WRONG_FIELD_COUNT 83u
#define POLYTWKB_MISSING_VALUE 84u

/* Why a blob can be no field of a column: place is where it begins, in bytes from the start of the stream. */
#define POLYTWKB_NO_LINESTRING 91u
#define POLYTWKB_ANOTHER_PRECISION 92u

/* Each text that polytwkb_reason_text or polytwkb_version writes fits this room, its NUL included. */
#define POLYTWKB_TEXT_ROOM 32

/* Styles of packed blobs. */
#define POLYTWKB_FULL 0u  /* with sizes, and with boxes if allowed */
#define POLYTWKB_PLAIN 1u /* without either */

/* Flags of polytwkb_read and polytwkb_write: 0, or this one. */
#define POLYTWKB_STOP_IF_FULL 1u /* end the call after the first geometry without room, and count no further */

/* Conversions, for polytwkb_convert and polytwkb_measure. */
#define POLYTWKB_PACK 0u
#define POLYTWKB_UNPACK 1u
#define POLYTWKB_SHOW 2u
#define POLYTWKB_GEOJSON 3u
#define POLYTWKB_HEADERS 4u

/*
 * POLYTWKB_GEOJSON writes a line of GeoJSON for each blob. POLYTWKB_HEADERS writes one of these for each line of
 * polytwkb_show, in the same order, the lowest byte of each number first: where C has that order too, an output that is
 * aligned to 8 bytes is an array of them.
 */
typedef struct polytwkb_header {
    uint64_t offset;  /* of its type byte, in bytes from the start of the stream */
    uint64_t length;  /* bytes, from its type byte to the end of its geometry */
    uint64_t points;  /* points of its geometry, with those of its members */
    uint32_t level;   /* collections that it is in: 0 for a blob */
    uint8_t kind;     /* POLYTWKB_KIND_POINT to POLYTWKB_KIND_COLLECTION */
    int8_t precision; /* decimals of its coordinates, -8 to 7 */
    uint8_t metadata; /* its metadata byte */
    uint8_t reserved; /* 0 */
} polytwkb_header;

/* The most that one geometry may have, its members included. */
typedef struct polytwkb_limits {
    uint32_t nest;   /* collections that a geometry may be in, 0 to 32 */
    uint32_t nodes;  /* rows, which are the nodes of a blob, 1 to 2^20 */
    uint32_t points; /* points, 0 to 2^24 */
} polytwkb_limits;

/* What a call did. */
typedef struct polytwkb_report {
    uint32_t status;       /* POLYTWKB_DONE to POLYTWKB_TOO_SMALL */
    uint32_t reason;       /* why the input is refused, 1 to 92; 0 with any other status */
    uint64_t place;        /* what is refused: the record of a table or of a CSV, from 1; the offset of an item of a
                             stream; the point of polytwkb_encode, the number of polytwkb_round or the row of
                             polytwkb_write, from 0. With any other status 0 */
    uint64_t text_offset;  /* of a refused polyline, in a table or alone, the refused byte; of polytwkb_write, with
                             POLYTWKB_POLYLINE_RANGE, the row's first point out of range, from 0; else 0 */
    uint64_t done;         /* geometries whose whole output is in the buffer; 1 if polytwkb_encode, polytwkb_decode or
                             polytwkb_round did all, else 0 */
    uint64_t sent;         /* items at the start of the buffer that were written: bytes, of polytwkb_decode points, of
                             polytwkb_round numbers. They are a prefix of the right output */
    uint64_t needed;       /* POLYTWKB_TOO_SMALL: items of the whole output, more than the buffer has; 0 if they are not
                             known, since memory was refused. With any other status as many as sent. The comments of
                             polytwkb_measure and polytwkb_write say what theirs is */
    uint64_t taken;        /* how much of the input the geometries in done are: bytes of a stream, records of a table
                              or of a CSV with its header, rows of polytwkb_write; 0 if done is 0, and of
                              polytwkb_encode, _decode and _round. What comes after gives the rest of the output: of a
                              table, below its header */
    uint64_t taken_points; /* points of the rows that polytwkb_write took; of the other calls 0 */
    uint64_t reserved[2];  /* 0; a later version may report more */
} polytwkb_report;

/* Sixteen collections, 2^20 rows and 2^24 points. */
polytwkb_limits polytwkb_standard_limits(void);

/*
 * The options of polytwkb_convert and polytwkb_convert_column. A field that is left out is 0, so
 * {sizeof(polytwkb_options)} has no option. precision and delimiter are 0 for polytwkb_convert.
 */
typedef struct polytwkb_options {
    uint32_t size;          /* sizeof(polytwkb_options): a later version may have more fields */
    uint32_t style;         /* POLYTWKB_FULL or POLYTWKB_PLAIN; only packing uses it, but it must be in range */
    polytwkb_limits limits; /* {0, 0, 0}: the standard ones */
    uint32_t precision;     /* of a column, which packing needs: POLYTWKB_DECIMALS(-8) to POLYTWKB_DECIMALS(7) */
    uint32_t delimiter;     /* between two fields of a CSV: any of ASCII but '"', CR and LF; 0 is a comma */
    uint32_t reserved[1];   /* 0 */
} polytwkb_options;

/* A precision in the options. It is more than 0, which is none given: 0 decimals have to be asked for. */
#define POLYTWKB_DECIMALS(precision) ((uint32_t)(9 + (precision)))

/*
 * Converts a buffer by a conversion, which is POLYTWKB_PACK or another number there. options may be NULL. A shorter
 * struct than this one has zeros for the rest. If a field that this call does not know is not 0, or size is 0 or
 * no multiple of 4, the status is 2. polytwkb_pack, _unpack and _show are this call with limits and a style, but take
 * three zeros as limits out of range. The symbol has no struct: it takes the fields as numbers of 32 bits, in their
 * order, and how many there are.
 */
polytwkb_report polytwkb_convert(uint32_t conversion, const uint8_t *input, size_t input_length, uint8_t *output,
                                 size_t output_length, const uint32_t *options, size_t option_count);

/*
 * Packs a column of a CSV (POLYTWKB_PACK), whose fields are polylines: each record after the header is a linestring,
 * an empty field an empty one. Or unpacks a stream of linestrings of one precision (POLYTWKB_UNPACK) to a CSV of one
 * column. words are the column's name, the name of a column of ids, and words for a missing value, each with a zero
 * byte after it, so none can have one in it. Those after the name may be left out, and an empty name of ids is none.
 * With ids all records are the lines of one multilinestring. Unpacking uses the name alone.
 *
 *   polytwkb_options options = {sizeof options, POLYTWKB_FULL, {0, 0, 0}, POLYTWKB_DECIMALS(5), ';', {0}};
 *   polytwkb_convert_column(POLYTWKB_PACK, csv, length, blobs, room, "geom", sizeof "geom", &options);
 *   polytwkb_convert_column(POLYTWKB_PACK, csv, length, blobs, room, "geom\0key", sizeof "geom\0key", &options);
 *   polytwkb_convert_column(POLYTWKB_PACK, csv, length, blobs, room, "geom\0\0NA", sizeof "geom\0\0NA", &options);
 *
 * The report is that of polytwkb_convert. If conversion is another one, words do not end with a zero byte, packing has
 * no precision, or an option is out of range, the status is 2. To measure, give a room of 0: with
 * POLYTWKB_TOO_SMALL, needed is the length. Takes memory for a list of the words, too. The symbol has no struct, as that
 * of polytwkb_convert.
 */
polytwkb_report polytwkb_convert_column(uint32_t conversion, const uint8_t *input, size_t input_length, uint8_t *output,
                                        size_t output_length, const uint8_t *words, size_t words_length,
                                        const uint32_t *options, size_t option_count);

/* Packs a table (CSV with the columns depth, kind, id, precision and polyline) to a stream of blobs. */
polytwkb_report polytwkb_pack(const uint8_t *input, size_t input_length, uint8_t *output, size_t output_length,
                              polytwkb_limits limits, uint32_t style);

/* Unpacks a stream of blobs to a table. */
polytwkb_report polytwkb_unpack(const uint8_t *input, size_t input_length, uint8_t *output, size_t output_length,
                                polytwkb_limits limits);

/* Writes a line for each header in a stream: level, offset, kind, precision, metadata byte, length, points. */
polytwkb_report polytwkb_show(const uint8_t *input, size_t input_length, uint8_t *output, size_t output_length,
                              polytwkb_limits limits);

/*
 * Converts and keeps nothing of the output. sent is 0. needed is the length of the whole output, also of an input that
 * is refused; it is 0 if that is not known, as with POLYTWKB_MEMORY. The rest of the report is that of the conversion
 * into enough room. Only packing uses style, but it must be in range.
 */
polytwkb_report polytwkb_measure(uint32_t conversion, const uint8_t *input, size_t input_length, polytwkb_limits limits,
                                 uint32_t style);

/* A point, in units of 10^-precision: x is the longitude and y the latitude, if the units are of degrees. */
typedef struct polytwkb_point {
    int64_t x; /* -2^62 to 2^62 - 1 */
    int64_t y; /* -2^62 to 2^62 - 1 */
} polytwkb_point;

/*
 * Writes the encoded polyline of points, which has y before x of each, into the room of a text.
 * 0: sent is the length of the text, and done is 1.
 * 1: a point is out of range, whatever the room is. reason is POLYTWKB_POLYLINE_RANGE, and place the first such point,
 *    from 0.
 * 4: memory was refused. needed is 0.
 * 5: the room is too small. needed is the length of the text.
 * With any status but 0 the room is as it was. Takes memory for the points and the text.
 */
polytwkb_report polytwkb_encode(const polytwkb_point *points, size_t count, uint8_t *text, size_t room);

/*
 * Writes the points of an encoded polyline, in the same way; sent, needed and room are numbers of points.
 * 1: the text is no polyline, whatever the room is. reason is POLYTWKB_POLYLINE_BAD_CHARACTER to
 *    POLYTWKB_POLYLINE_TOO_MANY (more than 2^32 - 1 points), and text_offset the byte of the text.
 * Takes memory for the points, twice.
 */
polytwkb_report polytwkb_decode(const uint8_t *text, size_t length, polytwkb_point *points, size_t room);

/*
 * Rounds numbers, such as degrees, to coordinates in units of 10^-precision; precision is -8 to 7. Each becomes the
 * whole number nearest to it times 10^precision, of two the one farther from 0. Up to 10^14 units a double that is the
 * nearest one to a half counts as that half: 0.15, which is a little less than that as a double, is 2 at precision 1.
 * Status 2: there is no such precision, and nothing is written. 0: sent is count. 1: a number
 * is not finite, or its coordinate is outside -2^62 to 2^62 - 1; reason is POLYTWKB_POLYLINE_RANGE, place the first
 * such number, counted from 0, and sent as many: the coordinates before it are written. 5, whatever the numbers are:
 * room is less than count. needed is count, and nothing is written. Places after those written stay as they were. Takes
 * no memory.
 */
polytwkb_report polytwkb_round(const double *numbers, size_t count, int32_t precision, int64_t *units, size_t room);

/*
 * Kinds of rows: the numbers of TWKB and WKB, and one for the rings of polygons. Rows of any kind but a ring are roots
 * (depth 0) or members of a collection. Below a row, one deeper, stand:
 *   below a polygon its rings, below a multipoint points, below a multilinestring linestrings, below a multipolygon
 *   polygons, below a collection its members; below a point, a linestring and a ring nothing.
 * Points: points, linestrings and rings have them. A point has one, or none if it is empty; below a multipoint it has
 * one. Other kinds have none of their own.
 * Precision: roots and members of collections have one, other rows POLYTWKB_NO_PRECISION; the points of a row without
 * one are in the units of the nearest row above that has one.
 * Ids: any row may have one but roots and rings; of the rows below one row all have ids, or none.
 */
#define POLYTWKB_KIND_POINT 1u
#define POLYTWKB_KIND_LINESTRING 2u
#define POLYTWKB_KIND_POLYGON 3u
#define POLYTWKB_KIND_MULTIPOINT 4u
#define POLYTWKB_KIND_MULTILINESTRING 5u
#define POLYTWKB_KIND_MULTIPOLYGON 6u
#define POLYTWKB_KIND_COLLECTION 7u
#define POLYTWKB_KIND_RING 8u

/* The precision of a row that has none: of a ring, and of a member of a multi kind. */
#define POLYTWKB_NO_PRECISION (-128)

/*
 * A row of a table, with the number of its points in place of their polyline. The rows of a geometry are in preorder: a
 * row, then the rows below it. The points of all rows are in one list, in the order of the rows. All 24 bytes have a
 * meaning. A polygon with a hole, and a multipoint whose points have the ids 7 and -1, at precision 5:
 *
 *   polytwkb_row rows[] = {                 // id, points, depth, kind, has_id, precision
 *       {0, 0, 0, POLYTWKB_KIND_POLYGON, 0, 5},
 *       {0, 4, 1, POLYTWKB_KIND_RING, 0, POLYTWKB_NO_PRECISION},
 *       {0, 4, 1, POLYTWKB_KIND_RING, 0, POLYTWKB_NO_PRECISION},
 *       {0, 0, 0, POLYTWKB_KIND_MULTIPOINT, 0, 5},
 *       {7, 1, 1, POLYTWKB_KIND_POINT, 1, POLYTWKB_NO_PRECISION},
 *       {-1, 1, 1, POLYTWKB_KIND_POINT, 1, POLYTWKB_NO_PRECISION},
 *   };
 *   polytwkb_point points[] = {
 *       {0, 0}, {900000, 0}, {0, 900000}, {0, 0},                     // the outer ring: from 0 to 9 degrees
 *       {100000, 100000}, {200000, 100000}, {100000, 200000}, {100000, 100000}, // the hole: from 1 to 2 degrees
 *       {1337770, 5251630},                                           // 13.3777 degrees east, 52.5163 degrees north
 *       {-7404450, 4068920},
 *   };
 */
typedef struct polytwkb_row {
    int64_t id;       /* the id if has_id is 1, and 0 if it is 0 */
    uint64_t points;  /* how many points are the row's own: the next ones of the list */
    uint32_t depth;   /* 0: a geometry begins */
    uint16_t kind;    /* POLYTWKB_KIND_POINT to POLYTWKB_KIND_RING */
    uint8_t has_id;   /* 1 if the row has an id, 0 if it has none */
    int8_t precision; /* -8 to 7 of a geometry and of a member of a collection, else POLYTWKB_NO_PRECISION */
} polytwkb_row;

/* What polytwkb_read did. */
typedef struct polytwkb_counts {
    uint32_t status;        /* POLYTWKB_DONE, _REFUSED, _ARGUMENTS, _MEMORY or _TOO_SMALL */
    uint32_t reason;        /* why the stream is refused, 41 to 49 or 61; 0 with any other status */
    uint64_t place;         /* the offset of the refused item; else 0 */
    uint64_t done;          /* geometries in the arrays */
    uint64_t rows;          /* rows at the start of their array */
    uint64_t points;        /* points at the start of their array */
    uint64_t needed_rows;   /* rows of all geometries that were read, whether there was room for them or not */
    uint64_t needed_points; /* points of all these geometries */
    uint64_t taken;         /* bytes of the geometries in the arrays: the other geometries begin there */
    uint64_t reserved[2];   /* 0; a later version may report more */
} polytwkb_counts;

/*
 * Reads a stream of blobs into an array of rows and one of points. They get whole geometries only, and places after
 * those written stay as they were.
 * 0: the arrays have all rows that polytwkb_unpack prints, and their points.
 * 1: a blob is refused, and the arrays have the geometries before it. reason and place are those of polytwkb_unpack.
 * 4: memory was refused. The arrays have the geometries before that for which there was room; the needed counts are
 *    those of all geometries before that, and no more is known of the stream.
 * 5: an array is too small for a geometry. The arrays have the geometries before it, and nothing of those after it.
 *    needed_rows and needed_points say how much room would do. If a blob further on is refused, they count the
 *    geometries before it, and a call with so much room answers 1.
 *
 * A stream has at most as many rows as bytes, and at most half as many points as bytes. To count first, give rooms of
 * 0. Takes memory for one geometry.
 *
 * ends gets, for each geometry in the arrays, the offset in blobs at which it ends. With an end_room of 0 no ends are
 * written and none are needed; else an end_room below the number of geometries is an array that is too small. As many
 * ends as rows always suffice.
 *
 * taken is the last of these offsets, with any status but 2: the geometries that are not in the arrays are those of the
 * bytes from there on. With POLYTWKB_STOP_IF_FULL the call ends after the first geometry that lacks room, with status 5
 * and needed counts that include this geometry and none after it; without the flag it reads on to count all of them.
 * So a stream is read by windows of its bytes, in the memory of a window and of its largest geometry. With the reason
 * POLYTWKB_BLOB_TRUNCATED the window lacks the end of a blob; with status 5 and taken 0 an array is too small for the
 * first geometry:
 *
 *   for (;;) {
 *       size_t got = fread(window + held, 1, room - held, stdin);
 *       polytwkb_counts counts = polytwkb_read(window, held += got, rows, row_room, points, point_room, NULL, 0,
 *                                              polytwkb_standard_limits(), POLYTWKB_STOP_IF_FULL);
 *       use(rows, counts.rows, points, counts.points);
 *       memmove(window, window + counts.taken, held -= counts.taken);
 *       if (counts.status == POLYTWKB_TOO_SMALL && counts.taken == 0)
 *           grow_arrays(counts.needed_rows, counts.needed_points);
 *       else if (counts.reason == POLYTWKB_BLOB_TRUNCATED && got != 0) { if (held == room) grow_window(2 * room); }
 *       else if (counts.status == POLYTWKB_DONE ? got == 0 : counts.status != POLYTWKB_TOO_SMALL) return counts;
 *   }
 */
polytwkb_counts polytwkb_read(const uint8_t *blobs, size_t length, polytwkb_row *rows, size_t row_room,
                              polytwkb_point *points, size_t point_room, uint64_t *ends, size_t end_room,
                              polytwkb_limits limits, uint32_t flags);

/*
 * Writes an array of rows and one of points as a stream of canonical blobs. The output gets whole blobs only, and bytes
 * after those written stay as they were.
 * 0: each row belongs to a geometry, all points are those of the rows, and the output has the blobs of all geometries,
 *    as polytwkb_pack writes them.
 * 1: a row is refused, or points are left over. The output has the blobs of the complete geometries before, and nothing
 *    of the geometry that the row would belong to. If points are left over, the last geometry is not complete.
 * 4: memory was refused. The output has the blobs before that for which there was room; needed counts those of all
 *    complete geometries before that, and no more is known of the rows.
 * 5: the output is too small for a blob. It has the blobs before it, and nothing of those after it. needed says how
 *    much room would do. If a row further on is refused, it counts the blobs before that, and a call with so much room
 *    answers 1.
 * done is the number of blobs in the output, sent that of their bytes, and needed, with any status but 2, the number
 * of bytes of the blobs of all complete geometries. To count first, give a room of 0.
 *
 * ends gets, for each blob in the output, the byte of the output at which it ends. With an end_room of 0 no ends are
 * written and none are needed; else an end_room below the number of blobs is an output that is too small.
 *
 * taken and taken_points are the rows and points of these blobs, with any status but 2: those from there on give the
 * rest of the stream. With POLYTWKB_STOP_IF_FULL the call ends after the first blob that lacks room, with status 5 and
 * a needed that includes this blob and none after it; without the flag it reads on to count all of them.
 *
 * place is the first refused row, from 0, and reason the first of these that holds of it:
 *   BAD_KIND             kind is no number from 1 to 8
 *   BAD_ID               has_id is neither 0 nor 1, or it is 0 and id is not
 *   POINTS_MISSING       fewer points are left in the list than the row has
 *   BAD_PLACE            a row of this kind may not stand below the row above it (see the kinds), or the first row is
 *                        no root, or depth is more than one below the row before
 *   TOO_DEEP             the row above it is a collection in as many collections as the limit nest allows
 *   TOO_MANY_ROWS        its geometry has as many rows before it as the limit nodes allows
 *   ID_NOT_ALLOWED       a root or a ring has an id
 *   MIXED_IDS            it has an id and the first row beside it has none, or the other way round
 *   BAD_PRECISION        precision is neither -8 to 7 nor POLYTWKB_NO_PRECISION
 *   PRECISION_MISSING, PRECISION_NOT_ALLOWED   see the kinds
 *   POLYLINE_NOT_ALLOWED it has points, and its kind has none of its own
 *   POLYLINE_RANGE       a coordinate is not in -2^62 to 2^62 - 1; text_offset is the first such point, from 0
 *   POLYLINE_TOO_MANY    with its points the geometry has more than the limit points allows
 *   POINT_COUNT          a point has more than one point, or below a multipoint none
 * If no row is refused and points are left over, reason is POINTS_LEFT, and place is row_count.
 *
 * If has_id and the number of points are right, polytwkb_pack gives the row of a table with these values the same
 * reason, but in two cases. A depth above 999 is BAD_DEPTH there. If points are out of range and too many, the reason
 * there is the one that comes first in the text of the polyline; here it is POLYLINE_RANGE.
 *
 * Takes memory for one geometry and its blob.
 */
polytwkb_report polytwkb_write(const polytwkb_row *rows, size_t row_count, const polytwkb_point *points,
                               size_t point_count, uint8_t *output, size_t output_length, uint64_t *ends,
                               size_t end_room, polytwkb_limits limits, uint32_t style, uint32_t flags);

/*
 * Writes what a reason means in English, as the command says it on standard error: "bad header" for
 * POLYTWKB_BAD_HEADER, without the place. The text of a number that is no reason is empty, and so is
 * that of 0. If the room is too small, the text is cut; in any room but 0 a NUL follows it. Bytes after
 * the NUL stay as they are. Returns the length of the whole text without its NUL.
 */
size_t polytwkb_reason_text(uint32_t reason, char *text, size_t room);

/* Writes the version of the library, such as "0.1.0", in the same way. */
size_t polytwkb_version(char *text, size_t room);

/*
 * The functions above, for a caller in C or C++: a buffer of length 0 may be NULL. The library takes
 * no NULL, so these pass the address of a byte that is neither read nor written.
 */
static inline const uint8_t *polytwkb_input(const uint8_t *input, size_t length) {
    static const uint8_t none = 0;
    return length == 0 ? &none : input;
}

static inline uint8_t *polytwkb_output(uint8_t *output, size_t length) {
    static uint8_t none = 0;
    return length == 0 ? &none : output;
}

/* The options as numbers, and how many there are: a size that is too small for itself is passed, and refused. */
static inline const uint32_t *polytwkb_numbers(const polytwkb_options *options) {
    static const uint32_t none = 0;
    return options == NULL ? &none : (const uint32_t *)options;
}

static inline size_t polytwkb_number_count(const polytwkb_options *options) {
    size_t count = *polytwkb_numbers(options) / sizeof(uint32_t);
    return options != NULL && count == 0 ? 1 : count;
}

static inline polytwkb_report polytwkb_convert_any(uint32_t conversion, const uint8_t *input, size_t input_length,
                                                   uint8_t *output, size_t output_length,
                                                   const polytwkb_options *options) {
    return polytwkb_convert(conversion, polytwkb_input(input, input_length), input_length,
                            polytwkb_output(output, output_length), output_length, polytwkb_numbers(options),
                            polytwkb_number_count(options));
}

static inline polytwkb_report polytwkb_convert_column_any(uint32_t conversion, const uint8_t *input,
                                                          size_t input_length, uint8_t *output, size_t output_length,
                                                          const char *words, size_t words_length,
                                                          const polytwkb_options *options) {
    return polytwkb_convert_column(conversion, polytwkb_input(input, input_length), input_length,
                                   polytwkb_output(output, output_length), output_length,
                                   polytwkb_input((const uint8_t *)words, words_length), words_length,
                                   polytwkb_numbers(options), polytwkb_number_count(options));
}

static inline polytwkb_report polytwkb_pack_any(const uint8_t *input, size_t input_length, uint8_t *output,
                                                size_t output_length, polytwkb_limits limits, uint32_t style) {
    return polytwkb_pack(polytwkb_input(input, input_length), input_length, polytwkb_output(output, output_length),
                         output_length, limits, style);
}

static inline polytwkb_report polytwkb_unpack_any(const uint8_t *input, size_t input_length, uint8_t *output,
                                                  size_t output_length, polytwkb_limits limits) {
    return polytwkb_unpack(polytwkb_input(input, input_length), input_length, polytwkb_output(output, output_length),
                           output_length, limits);
}

static inline polytwkb_report polytwkb_show_any(const uint8_t *input, size_t input_length, uint8_t *output,
                                                size_t output_length, polytwkb_limits limits) {
    return polytwkb_show(polytwkb_input(input, input_length), input_length, polytwkb_output(output, output_length),
                         output_length, limits);
}

static inline polytwkb_report polytwkb_measure_any(uint32_t conversion, const uint8_t *input, size_t input_length,
                                                   polytwkb_limits limits, uint32_t style) {
    return polytwkb_measure(conversion, polytwkb_input(input, input_length), input_length, limits, style);
}

static inline polytwkb_report polytwkb_encode_any(const polytwkb_point *points, size_t count, uint8_t *text,
                                                  size_t room) {
    static const polytwkb_point none = {0, 0};
    return polytwkb_encode(count == 0 ? &none : points, count, polytwkb_output(text, room), room);
}

static inline polytwkb_report polytwkb_decode_any(const uint8_t *text, size_t length, polytwkb_point *points,
                                                  size_t room) {
    static polytwkb_point none = {0, 0};
    return polytwkb_decode(polytwkb_input(text, length), length, room == 0 ? &none : points, room);
}

static inline polytwkb_report polytwkb_round_any(const double *numbers, size_t count, int32_t precision, int64_t *units,
                                                 size_t room) {
    static const double none = 0;
    static int64_t no_unit;
    return polytwkb_round(count == 0 ? &none : numbers, count, precision, room == 0 ? &no_unit : units, room);
}

static inline polytwkb_counts polytwkb_read_any(const uint8_t *blobs, size_t length, polytwkb_row *rows,
                                                size_t row_room, polytwkb_point *points, size_t point_room,
                                                uint64_t *ends, size_t end_room, polytwkb_limits limits,
                                                uint32_t flags) {
    static polytwkb_row no_row;
    static polytwkb_point no_point;
    static uint64_t no_end;
    return polytwkb_read(polytwkb_input(blobs, length), length, row_room == 0 ? &no_row : rows, row_room,
                         point_room == 0 ? &no_point : points, point_room, end_room == 0 ? &no_end : ends, end_room,
                         limits, flags);
}

static inline polytwkb_report polytwkb_write_any(const polytwkb_row *rows, size_t row_count,
                                                 const polytwkb_point *points, size_t point_count, uint8_t *output,
                                                 size_t output_length, uint64_t *ends, size_t end_room,
                                                 polytwkb_limits limits, uint32_t style, uint32_t flags) {
    static const polytwkb_row no_row = {0, 0, 0, 0, 0, 0};
    static const polytwkb_point no_point = {0, 0};
    static uint64_t no_end;
    return polytwkb_write(row_count == 0 ? &no_row : rows, row_count, point_count == 0 ? &no_point : points,
                          point_count, polytwkb_output(output, output_length), output_length,
                          end_room == 0 ? &no_end : ends, end_room, limits, style, flags);
}

static inline size_t polytwkb_reason_text_any(uint32_t reason, char *text, size_t room) {
    return polytwkb_reason_text(reason, (char *)polytwkb_output((uint8_t *)text, room), room);
}

static inline size_t polytwkb_version_any(char *text, size_t room) {
    return polytwkb_version((char *)polytwkb_output((uint8_t *)text, room), room);
}

#define polytwkb_convert polytwkb_convert_any
#define polytwkb_convert_column polytwkb_convert_column_any
#define polytwkb_pack polytwkb_pack_any
#define polytwkb_unpack polytwkb_unpack_any
#define polytwkb_show polytwkb_show_any
#define polytwkb_measure polytwkb_measure_any
#define polytwkb_encode polytwkb_encode_any
#define polytwkb_decode polytwkb_decode_any
#define polytwkb_round polytwkb_round_any
#define polytwkb_read polytwkb_read_any
#define polytwkb_write polytwkb_write_any
#define polytwkb_reason_text polytwkb_reason_text_any
#define polytwkb_version polytwkb_version_any

#ifdef __cplusplus
}
#endif

#endif
