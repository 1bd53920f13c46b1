/*
 * WKB (OGC 06-103r4, ISO 13249-3) of the rows and points of a blob: little-endian, two dimensions. And rows and points
 * of WKB: in either byte order, with the types of ISO and of EWKB, and with reference systems that are passed over.
 */
#ifndef POLYTWKB_WKB_H
#define POLYTWKB_WKB_H

#include "packing.h"

/* ---- out */

static uint8_t *twkb_put_little(uint8_t *at, uint64_t number, int bytes) {
    for (int byte = 0; byte < bytes; byte++) *at++ = (uint8_t)(number >> (8 * byte));
    return at;
}

static uint8_t *twkb_put_double(uint8_t *at, double number) {
    uint64_t bits;
    memcpy(&bits, &number, sizeof bits);
    return twkb_put_little(at, bits, 8);
}

/* The bytes of a row's own: order, type and number of points or parts of a geometry, and its points. */
static uint64_t twkb_wkb_length(const polytwkb_row *row) {
    if (row->kind == POLYTWKB_KIND_POINT) return 1 + 4 + 16;
    return (row->kind == POLYTWKB_KIND_RING ? 4 : 1 + 4 + 4) + 16 * row->points;
}

static uint64_t twkb_wkb_lengths(const twkb_arrays *found) {
    uint64_t length = 0;
    for (uint64_t row = 0; row < found->row_count; row++) length += twkb_wkb_length(&found->rows[row]);
    return length;
}

/* Sets whether ids are left out, by a word, which may be NULL. */
static twkb_end twkb_set_drop(const char *word, size_t length, bool *drops, twkb_fault_text *fault) {
    bool is_drop = word && length == 4 && memcmp(word, "drop", 4) == 0;
    *drops = is_drop;
    if (is_drop || (word && length == 6 && memcmp(word, "refuse", 6) == 0)) return TWKB_DONE;
    snprintf(fault->text, sizeof fault->text, "ids are 'refuse' or 'drop'");
    return TWKB_REFUSED;
}

/* WKB has no ids: the first row that has one is refused, and counted from 1. */
static twkb_end twkb_without_ids(const twkb_arrays *found, twkb_fault_text *fault) {
    for (uint64_t row = 0; row < found->row_count; row++) {
        if (!found->rows[row].has_id) continue;
        return twkb_row_fault(row, "an id, which WKB cannot have: 'drop' leaves ids out", false, fault);
    }
    return TWKB_DONE;
}

/* The coordinates of a row. An empty point has two that are no numbers. */
static uint8_t *twkb_put_coordinates(uint8_t *at, const polytwkb_row *row, const polytwkb_point *points,
                                     int precision) {
    static const uint64_t no_number = UINT64_C(0x7ff8000000000000);
    for (uint64_t place = 0; place < row->points; place++) {
        at = twkb_put_double(at, twkb_degrees(points[place].x, precision));
        at = twkb_put_double(at, twkb_degrees(points[place].y, precision));
    }
    if (row->kind != POLYTWKB_KIND_POINT || row->points > 0) return at;
    return twkb_put_little(twkb_put_little(at, no_number, 8), no_number, 8);
}

/* The number of parts of the geometry above a row, which is one more. */
static void twkb_count_part(uint8_t *count) {
    for (int byte = 0; byte < 4 && ++count[byte] == 0; byte++) {}
}

/* Writes the geometry of a blob into memory of `twkb_wkb_lengths`. Ids are left out. */
static twkb_end twkb_put_wkb(uint8_t *at, const twkb_arrays *found, void *database) {
    uint8_t *counts[TWKB_MOST_OPEN];
    const polytwkb_point *points = found->points;
    int precision = 0;
    for (uint64_t place = 0; place < found->row_count; place++) {
        const polytwkb_row *row = &found->rows[place];
        if (row->precision != POLYTWKB_NO_PRECISION) precision = row->precision;
        if (row->depth > 0) twkb_count_part(counts[row->depth - 1]);
        if (row->kind != POLYTWKB_KIND_RING) *at++ = 1, at = twkb_put_little(at, row->kind, 4);
        counts[row->depth] = at;
        if (row->kind != POLYTWKB_KIND_POINT) at = twkb_put_little(at, row->points, 4);
        at = twkb_put_coordinates(at, row, points, precision);
        points += row->points;
        if (place % 4096 == 4095 && twkb_pause(database)) return TWKB_CANCELLED;
    }
    return TWKB_DONE;
}

/* ---- in */

#define TWKB_HAS_Z UINT32_C(0x80000000)
#define TWKB_HAS_M UINT32_C(0x40000000)
#define TWKB_HAS_SRID UINT32_C(0x20000000)

/* A geometry whose parts are not all taken. */
typedef struct {
    uint32_t left;
    uint16_t kind;
    bool is_big; /* its byte order, which is that of its rings */
} twkb_unfinished;

/* WKB that is read, and its rows and points so far. */
typedef struct {
    const uint8_t *bytes;
    size_t length, at;
    twkb_packing packing;
    twkb_unfinished open[TWKB_MOST_OPEN];
    uint32_t open_count, collections; /* geometries that are open, and how many of them are collections */
    int8_t precision;
    void *database;
    twkb_fault_text *fault;
} twkb_wkb;

static twkb_end twkb_refuse_at(twkb_wkb *it, uint64_t place, const char *words) {
    snprintf(it->fault->text, sizeof it->fault->text, "byte %llu: %s", (unsigned long long)place, words);
    return TWKB_REFUSED;
}

/* Refuses with the words of a reason alone. */
static twkb_end twkb_refuse_words(uint32_t reason, twkb_fault_text *fault) {
    polytwkb_reason_text(reason, fault->text, sizeof fault->text);
    return TWKB_REFUSED;
}

static twkb_end twkb_refuse_wkb(twkb_wkb *it, uint64_t place, uint32_t reason) {
    return twkb_refuse_byte(place, reason, it->fault);
}

/* A number of four or eight bytes. */
static uint64_t twkb_number_at(const uint8_t *at, int bytes, bool is_big) {
    uint64_t number = 0;
    for (int byte = 0; byte < bytes; byte++) number |= (uint64_t)at[is_big ? bytes - 1 - byte : byte] << (8 * byte);
    return number;
}

static double twkb_double_at(const uint8_t *at, bool is_big) {
    uint64_t bits = twkb_number_at(at, 8, is_big);
    double number;
    memcpy(&number, &bits, sizeof number);
    return number;
}

/* Takes a number of four bytes. */
static twkb_end twkb_take_count(twkb_wkb *it, bool is_big, uint32_t *count) {
    if (it->length - it->at < 4) return twkb_refuse_wkb(it, it->at, POLYTWKB_BLOB_TRUNCATED);
    *count = (uint32_t)twkb_number_at(it->bytes + it->at, 4, is_big);
    it->at += 4;
    return TWKB_DONE;
}

/* The kind of a type, and its dimensions in the bits of EWKB; those of ISO are the thousands. */
static uint16_t twkb_kind_of_type(uint32_t type, uint32_t *dimensions) {
    static const uint32_t of_thousands[] = {0, TWKB_HAS_Z, TWKB_HAS_M, TWKB_HAS_Z | TWKB_HAS_M};
    uint32_t number = type & ~(TWKB_HAS_Z | TWKB_HAS_M | TWKB_HAS_SRID);
    *dimensions = type & (TWKB_HAS_Z | TWKB_HAS_M);
    if (number >= 4000) return 0;
    *dimensions |= of_thousands[number / 1000];
    number %= 1000;
    return number <= POLYTWKB_KIND_COLLECTION ? (uint16_t)number : 0;
}

/* Whether a geometry of this kind may be a part of the one that is open. */
static bool twkb_may_be_part(const twkb_wkb *it, uint16_t kind) {
    if (it->open_count == 0) return true;
    uint16_t above = it->open[it->open_count - 1].kind;
    return above == POLYTWKB_KIND_COLLECTION || above == kind + (POLYTWKB_KIND_MULTIPOINT - POLYTWKB_KIND_POINT);
}

/* Takes byte order and type, and passes over the number of a reference system. */
static twkb_end twkb_take_type(twkb_wkb *it, bool *is_big, uint16_t *kind) {
    static const char *const words[] = {"", "M coordinates", "Z coordinates", "Z and M coordinates"};
    uint32_t type, dimensions, system;
    size_t begin = it->at;
    if (it->at == it->length) return twkb_refuse_wkb(it, it->at, POLYTWKB_BLOB_TRUNCATED);
    if (it->bytes[begin] > 1) return twkb_refuse_at(it, begin, "byte order is neither 0 nor 1");
    *is_big = it->bytes[it->at++] == 0;
    twkb_end end = twkb_take_count(it, *is_big, &type);
    if (end != TWKB_DONE) return end;
    *kind = twkb_kind_of_type(type, &dimensions);
    if (*kind == 0) return twkb_refuse_wkb(it, begin + 1, POLYTWKB_BLOB_BAD_TYPE);
    if (dimensions) return twkb_refuse_at(it, begin + 1, words[dimensions >> 30]);
    if (!twkb_may_be_part(it, *kind)) return twkb_refuse_wkb(it, begin + 1, POLYTWKB_BAD_PLACE);
    return type & TWKB_HAS_SRID ? twkb_take_count(it, *is_big, &system) : TWKB_DONE;
}

#define TWKB_NUMBERS_AT_ONCE 1024

/* Rounds coordinates, and puts them after the points so far, for which there is room. */
static twkb_end twkb_put_rounded(twkb_wkb *it, uint64_t count, bool is_big) {
    double numbers[TWKB_NUMBERS_AT_ONCE];
    int64_t *units = &it->packing.points[it->packing.point_count].x;
    for (uint64_t place = 0; place < count; place++) {
        numbers[place] = twkb_double_at(it->bytes + it->at + 8 * place, is_big);
    }
    polytwkb_report report = polytwkb_round(numbers, count, it->precision, units, count);
    if (report.status == POLYTWKB_DONE) {
        it->at += 8 * count, it->packing.point_count += count / 2;
        return TWKB_DONE;
    }
    uint64_t place = it->at + 8 * report.place;
    if (!isfinite(numbers[report.place])) return twkb_refuse_at(it, place, "coordinate is no finite number");
    return twkb_refuse_wkb(it, place, POLYTWKB_BLOB_RANGE);
}

/* Takes the points of a row. Memory is taken for those alone whose bytes are there. */
static twkb_end twkb_take_points(twkb_wkb *it, uint32_t count, bool is_big) {
    uint64_t left = it->length - it->at, whole = left / 16 < count ? left / 16 : count, end_count;
    twkb_packing *packing = &it->packing;
    end_count = packing->point_count + whole;
    if (!twkb_grow((void **)&packing->points, &packing->point_room, end_count, sizeof *packing->points)) {
        return TWKB_NO_MEMORY;
    }
    while (packing->point_count < end_count) {
        uint64_t numbers = 2 * (end_count - packing->point_count);
        twkb_end end = twkb_put_rounded(it, numbers < TWKB_NUMBERS_AT_ONCE ? numbers : TWKB_NUMBERS_AT_ONCE, is_big);
        if (end != TWKB_DONE) return end;
        if (numbers > TWKB_NUMBERS_AT_ONCE && twkb_pause(it->database)) return TWKB_CANCELLED;
    }
    if (whole == count) return TWKB_DONE;
    return twkb_refuse_wkb(it, it->at + (it->length - it->at) / 8 * 8, POLYTWKB_BLOB_TRUNCATED);
}

/* Takes the coordinates of a point: two that are no numbers are those of an empty one. */
static twkb_end twkb_take_point(twkb_wkb *it, polytwkb_row *row, bool is_big) {
    const uint8_t *at = it->bytes + it->at;
    bool is_whole = it->length - it->at >= 16;
    if (is_whole && isnan(twkb_double_at(at, is_big)) && isnan(twkb_double_at(at + 8, is_big))) {
        if (row->precision == POLYTWKB_NO_PRECISION) return twkb_refuse_at(it, it->at, "empty point in a multipoint");
        it->at += 16;
        return TWKB_DONE;
    }
    if (it->packing.point_count == polytwkb_standard_limits().points) {
        return twkb_refuse_wkb(it, it->at, POLYTWKB_BLOB_TOO_MANY_POINTS);
    }
    row->points = 1;
    return twkb_take_points(it, 1, is_big);
}

/* Takes the number of points, and the points; or the number of parts, and then the geometry is open. */
static twkb_end twkb_take_counted(twkb_wkb *it, polytwkb_row *row, bool is_big) {
    const polytwkb_limits limits = polytwkb_standard_limits();
    uint32_t count;
    size_t begin = it->at;
    twkb_end end = twkb_take_count(it, is_big, &count);
    if (end != TWKB_DONE) return end;
    if (twkb_has_points(row->kind)) {
        if (count > limits.points - it->packing.point_count) {
            return twkb_refuse_wkb(it, begin, POLYTWKB_BLOB_TOO_MANY_POINTS);
        }
        row->points = count;
        return twkb_take_points(it, count, is_big);
    }
    if (count > limits.nodes - 1 - it->packing.row_count) {
        return twkb_refuse_wkb(it, begin, POLYTWKB_BLOB_TOO_MANY_NODES);
    }
    it->open[it->open_count++] = (twkb_unfinished){count, row->kind, is_big};
    it->collections += row->kind == POLYTWKB_KIND_COLLECTION;
    return TWKB_DONE;
}

/* Takes a geometry without its parts, or a ring. */
static twkb_end twkb_take_row(twkb_wkb *it) {
    const polytwkb_limits limits = polytwkb_standard_limits();
    const twkb_unfinished *above = it->open_count > 0 ? &it->open[it->open_count - 1] : NULL;
    bool is_ring = above && above->kind == POLYTWKB_KIND_POLYGON, is_big = is_ring && above->is_big;
    bool is_own = !above || above->kind == POLYTWKB_KIND_COLLECTION;
    polytwkb_row row = {.depth = it->open_count, .kind = POLYTWKB_KIND_RING};
    size_t begin = it->at;
    row.precision = is_own ? it->precision : POLYTWKB_NO_PRECISION;
    if (it->packing.row_count == limits.nodes) return twkb_refuse_wkb(it, begin, POLYTWKB_BLOB_TOO_MANY_NODES);
    if (is_own && it->collections > limits.nest) return twkb_refuse_wkb(it, begin, POLYTWKB_BLOB_TOO_DEEP);
    twkb_end end = is_ring ? TWKB_DONE : twkb_take_type(it, &is_big, &row.kind);
    if (end == TWKB_DONE) {
        bool is_point = row.kind == POLYTWKB_KIND_POINT;
        end = is_point ? twkb_take_point(it, &row, is_big) : twkb_take_counted(it, &row, is_big);
    }
    if (end != TWKB_DONE) return end;
    twkb_packing *packing = &it->packing;
    if (!twkb_grow((void **)&packing->rows, &packing->row_room, packing->row_count + 1, sizeof row)) {
        return TWKB_NO_MEMORY;
    }
    packing->rows[packing->row_count++] = row;
    return packing->row_count % 4096 == 0 && twkb_pause(it->database) ? TWKB_CANCELLED : TWKB_DONE;
}

/* Ends the geometries that have all their parts; whether one is left, of which a part comes next. */
static bool twkb_has_more(twkb_wkb *it) {
    for (; it->open_count > 0; it->open_count--) {
        twkb_unfinished *last = &it->open[it->open_count - 1];
        if (last->left > 0) {
            last->left--;
            return true;
        }
        it->collections -= last->kind == POLYTWKB_KIND_COLLECTION;
    }
    return false;
}

/* Reads a value that is exactly one geometry. The first fault in the order of its bytes is told. */
static twkb_end twkb_read_wkb(twkb_wkb *it) {
    twkb_end end = TWKB_DONE;
    do { end = twkb_take_row(it); } while (end == TWKB_DONE && twkb_has_more(it));
    if (end == TWKB_DONE && it->at < it->length) return twkb_refuse_at(it, it->at, "bytes after the geometry");
    it->packing.text_length = 12 * it->packing.point_count; /* most numbers have six bytes or fewer */
    return end;
}

#endif
