/*
 * What both databases do with a blob: whether a value is exactly one, its rows and points, its headers, its GeoJSON, and
 * the texts of faults. Each database includes this and gives the four functions that are declared first. All else is calls of the
 * library.
 */
#ifndef POLYTWKB_BLOB_H
#define POLYTWKB_BLOB_H

#include <math.h>
#include <stdbool.h>
#include <stdio.h>
#include <string.h>

#include "polytwkb.h"

/* Memory of the database. `twkb_take` and `twkb_grown` give NULL or do not return if there is none. */
static void *twkb_take(size_t size);
static void *twkb_grown(void *memory, size_t size);
static void twkb_give_back(void *memory);

/*
 * Called between pieces of work that take long, so that a statement can be cancelled there: the call does not return, or
 * says that it is. `database` is the connection, or NULL where it is not known.
 */
static bool twkb_pause(void *database);

/* How a call ended. */
typedef enum { TWKB_DONE, TWKB_REFUSED, TWKB_NO_MEMORY, TWKB_CANCELLED } twkb_end;

/* A fault as text, such as "byte 4: coordinate out of range". */
typedef struct {
    char text[96];
} twkb_fault_text;

static const char twkb_bytes_after[] = "bytes after the blob";

/* Words of kinds, by their numbers. */
#define TWKB_WORD(word)                                                                                                \
    { word, sizeof(word) - 1 }
static const struct {
    const char *word;
    size_t length;
} twkb_kinds[] = {
    TWKB_WORD(""),           TWKB_WORD("point"),           TWKB_WORD("linestring"),   TWKB_WORD("polygon"),
    TWKB_WORD("multipoint"), TWKB_WORD("multilinestring"), TWKB_WORD("multipolygon"), TWKB_WORD("collection"),
    TWKB_WORD("ring"),
};

/* The number of a kind, 0 if the word is none. */
static uint16_t twkb_kind_of(const char *word, size_t length) {
    for (uint16_t kind = POLYTWKB_KIND_POINT; kind <= POLYTWKB_KIND_RING; kind++) {
        if (twkb_kinds[kind].length == length && memcmp(twkb_kinds[kind].word, word, length) == 0) return kind;
    }
    return 0;
}

/* More than a geometry of the library has: a polygon of a multipolygon, inside 32 collections, has rings. */
#define TWKB_MOST_OPEN 40

/* Whether rows of a kind have points of their own. */
static bool twkb_has_points(uint16_t kind) {
    return kind == POLYTWKB_KIND_POINT || kind == POLYTWKB_KIND_LINESTRING || kind == POLYTWKB_KIND_RING;
}

/* A coordinate in degrees, or in the unit that its units are decimals of. */
static double twkb_degrees(int64_t units, int precision) {
    static const double powers[] = {1, 1e1, 1e2, 1e3, 1e4, 1e5, 1e6, 1e7, 1e8};
    return precision >= 0 ? (double)units / powers[precision] : (double)units * powers[-precision];
}

static twkb_end twkb_refuse_byte(uint64_t place, uint32_t reason, twkb_fault_text *fault) {
    char words[POLYTWKB_TEXT_ROOM];
    polytwkb_reason_text(reason, words, sizeof words);
    snprintf(fault->text, sizeof fault->text, "byte %llu: %s", (unsigned long long)place, words);
    return TWKB_REFUSED;
}

/* Refuses a value that begins with a blob and goes on: the place is the first byte after the blob. */
static twkb_end twkb_refuse_bytes_after(const uint8_t *blob, size_t length, twkb_fault_text *fault) {
    /* the first header of a value is that of its first blob, and an output that is too small is full */
    polytwkb_header first;
    polytwkb_report report = polytwkb_convert(POLYTWKB_HEADERS, blob, length, (uint8_t *)&first, sizeof first, NULL);
    if (report.status == POLYTWKB_MEMORY || (report.status == POLYTWKB_TOO_SMALL && report.needed == 0)) {
        return TWKB_NO_MEMORY;
    }
    snprintf(fault->text, sizeof fault->text, "byte %llu: %s", (unsigned long long)first.length, twkb_bytes_after);
    return TWKB_REFUSED;
}

/* Whether a value is exactly one blob, by how a call over all its bytes ended. */
static twkb_end twkb_one_blob(const uint8_t *blob, size_t length, uint32_t status, uint32_t reason, uint64_t place,
                              uint64_t done, twkb_fault_text *fault) {
    if (status == POLYTWKB_MEMORY || (status == POLYTWKB_TOO_SMALL && done == 0)) return TWKB_NO_MEMORY;
    if (done == 0 && status == POLYTWKB_DONE) return twkb_refuse_byte(0, POLYTWKB_BLOB_TRUNCATED, fault);
    if (done == 0) return twkb_refuse_byte(place, reason, fault);
    if (done == 1 && status == POLYTWKB_DONE) return TWKB_DONE;
    return twkb_refuse_bytes_after(blob, length, fault);
}

/* Refuses a long value that begins with a shorter blob, by prefixes of it: what comes after the blob is not read. */
static twkb_end twkb_check_prefixes(const uint8_t *blob, size_t length, twkb_fault_text *fault) {
    for (size_t prefix = 1 << 16; prefix < length; prefix *= 8) {
        polytwkb_report report =
            polytwkb_measure(POLYTWKB_SHOW, blob, prefix, polytwkb_standard_limits(), POLYTWKB_FULL);
        if (report.status == POLYTWKB_MEMORY) return TWKB_NO_MEMORY;
        if (report.done > 0) return twkb_refuse_bytes_after(blob, prefix, fault);
        if (twkb_pause(NULL)) return TWKB_CANCELLED;
    }
    return TWKB_DONE;
}

/* Room for the rows and points of most blobs, on the stack. */
typedef struct {
    polytwkb_row rows[256];
    polytwkb_point points[1024];
} twkb_small;

/* The rows and points of a blob: in the room that the caller gives, or in one block of memory if that is too small. */
typedef struct {
    void *block; /* NULL if there is none */
    const polytwkb_row *rows;
    const polytwkb_point *points;
    uint64_t row_count, point_count;
} twkb_arrays;

static void twkb_free_arrays(twkb_arrays *found) {
    if (found->block) twkb_give_back(found->block);
    found->block = NULL;
}

static polytwkb_counts twkb_read_small(const uint8_t *blob, size_t length, twkb_small *small) {
    const size_t rows = sizeof small->rows / sizeof *small->rows, points = sizeof small->points / sizeof *small->points;
    return polytwkb_read(blob, length, small->rows, rows, small->points, points, NULL, 0, polytwkb_standard_limits(),
                         0);
}

/* Reads a blob into a block for as many rows and points as are needed, and no more than one blob may have. */
static twkb_end twkb_read_large(const uint8_t *blob, size_t length, polytwkb_counts *counts, twkb_arrays *found) {
    polytwkb_limits limits = polytwkb_standard_limits();
    uint64_t row_room = counts->needed_rows < limits.nodes ? counts->needed_rows : limits.nodes;
    uint64_t point_room = counts->needed_points < limits.points ? counts->needed_points : limits.points;
    found->block = twkb_take(row_room * sizeof(polytwkb_row) + point_room * sizeof(polytwkb_point) + 1);
    if (!found->block) return TWKB_NO_MEMORY;
    polytwkb_row *rows = found->block;
    polytwkb_point *points = (polytwkb_point *)(rows + row_room);
    *counts = polytwkb_read(blob, length, rows, row_room, points, point_room, NULL, 0, limits, 0);
    found->rows = rows, found->points = points;
    return TWKB_DONE;
}

/* Reads a value that is exactly one blob. On any other end there is no block to give back. */
static twkb_end twkb_read(const uint8_t *blob, size_t length, twkb_small *small, twkb_arrays *found,
                          twkb_fault_text *fault) {
    twkb_end end = twkb_check_prefixes(blob, length, fault);
    *found = (twkb_arrays){.rows = small->rows, .points = small->points};
    if (end != TWKB_DONE) return end;
    polytwkb_counts counts = twkb_read_small(blob, length, small);
    if (counts.status == POLYTWKB_TOO_SMALL && counts.done == 0) {
        if (twkb_pause(NULL)) return TWKB_CANCELLED;
        if (twkb_read_large(blob, length, &counts, found) != TWKB_DONE) return TWKB_NO_MEMORY;
    }
    found->row_count = counts.rows, found->point_count = counts.points;
    end = twkb_one_blob(blob, length, counts.status, counts.reason, counts.place, counts.done, fault);
    if (end != TWKB_DONE) twkb_free_arrays(found);
    return end;
}

/* Values up to this length are short. */
#define TWKB_SHORT 4096

/* After a call that wrote more bytes the database is asked whether to go on. */
#define TWKB_PAUSE (1 << 20)

/* The most bytes of a first guess at a text. */
#define TWKB_MOST_GUESSED ((size_t)1 << 29)

/* Whether a value is exactly one blob. To read a short one takes less time than to measure its headers. */
static twkb_end twkb_check(const uint8_t *blob, size_t length, twkb_fault_text *fault) {
    if (length <= TWKB_SHORT) {
        twkb_small small;
        polytwkb_counts counts = twkb_read_small(blob, length, &small);
        if (counts.status != POLYTWKB_TOO_SMALL || counts.done > 0) {
            return twkb_one_blob(blob, length, counts.status, counts.reason, counts.place, counts.done, fault);
        }
    }
    twkb_end end = twkb_check_prefixes(blob, length, fault);
    if (end != TWKB_DONE) return end;
    polytwkb_report report = polytwkb_measure(POLYTWKB_SHOW, blob, length, polytwkb_standard_limits(), POLYTWKB_FULL);
    return twkb_one_blob(blob, length, report.status, report.reason, report.place, report.done, fault);
}

/* Memory for a text that the library writes: `front` bytes that are the database's, and then the text. */
typedef struct {
    uint8_t *memory;
    size_t front, room, length;
} twkb_output;

/* Makes room for a text; what was there is lost. */
static bool twkb_make_room(twkb_output *output, size_t room) {
    if (output->memory && output->room >= room) return true;
    if (output->memory) twkb_give_back(output->memory);
    output->room = room;
    output->memory = twkb_take(output->front + room + 1);
    return output->memory != NULL;
}

/* Gives back what a text does not need of its memory, if that is much. */
static void twkb_shrink(twkb_output *output) {
    if (output->room - output->length < TWKB_SHORT) return;
    void *memory = twkb_grown(output->memory, output->front + output->length + 1);
    if (memory) output->memory = memory, output->room = output->length;
}

/* A first guess at the length of a polyline: a number has at most 13 characters, and few have more than six. */
static size_t twkb_polyline_guess(uint64_t count) { return count <= 64 ? 26 * count : 26 + 12 * count; }

/* Writes the polyline of points. Points of a blob are in range, so none is refused. */
static twkb_end twkb_put_polyline(const polytwkb_point *points, uint64_t count, twkb_output *output) {
    size_t room = twkb_polyline_guess(count);
    for (;;) {
        if (!twkb_make_room(output, room)) return TWKB_NO_MEMORY;
        polytwkb_report report = polytwkb_encode(points, count, output->memory + output->front, output->room);
        output->length = report.sent;
        if (report.status != POLYTWKB_TOO_SMALL) return report.status == POLYTWKB_DONE ? TWKB_DONE : TWKB_NO_MEMORY;
        room = report.needed;
    }
}

/*
 * Writes what a conversion makes of a value that is exactly one blob, after a first guess at the room for that, if there
 * is so much memory. What the library does in one call can't be cancelled, so the database is asked after it.
 */
static twkb_end twkb_convert_one(uint32_t conversion, const uint8_t *blob, size_t length, size_t room, void *database,
                                 twkb_output *output, twkb_fault_text *fault) {
    twkb_end end = twkb_check_prefixes(blob, length, fault);
    if (end != TWKB_DONE) return end;
    for (bool is_guess = true;; is_guess = false) {
        if (!twkb_make_room(output, room) && !(is_guess && twkb_make_room(output, 0))) return TWKB_NO_MEMORY;
        polytwkb_report report =
            polytwkb_convert(conversion, blob, length, output->memory + output->front, output->room, NULL);
        output->length = report.sent;
        if (report.needed > TWKB_PAUSE && twkb_pause(database)) return TWKB_CANCELLED;
        if (report.status != POLYTWKB_TOO_SMALL || report.done > 0) {
            return twkb_one_blob(blob, length, report.status, report.reason, report.place, report.done, fault);
        }
        if (report.needed == 0) return TWKB_NO_MEMORY;
        room = report.needed;
    }
}

/* Writes the headers of a value that is exactly one blob. A blob has one, and one for each member of a collection. */
static twkb_end twkb_put_headers(const uint8_t *blob, size_t length, twkb_output *output, twkb_fault_text *fault) {
    return twkb_convert_one(POLYTWKB_HEADERS, blob, length, 16 * sizeof(polytwkb_header), NULL, output, fault);
}

/*
 * Writes the GeoJSON of a value that is exactly one blob, without the end of its line. A point of two bytes has up to
 * some 20 characters, and most have fewer in all than 8 for each byte.
 */
static twkb_end twkb_put_geojson(const uint8_t *blob, size_t length, void *database, twkb_output *output,
                                 twkb_fault_text *fault) {
    size_t room = (length <= TWKB_SHORT ? 16 : 8) * length + 128;
    if (room > TWKB_MOST_GUESSED) room = TWKB_MOST_GUESSED;
    twkb_end end = twkb_convert_one(POLYTWKB_GEOJSON, blob, length, room, database, output, fault);
    output->length -= end == TWKB_DONE;
    return end;
}

#endif
