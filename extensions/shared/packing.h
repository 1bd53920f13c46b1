/*
 * Rows that come one by one, and their blob. What a row of arrays cannot hold, such as an unknown kind, is refused
 * here, with the reason that the row of a table has; all other rules are the library's.
 */
#ifndef POLYTWKB_PACKING_H
#define POLYTWKB_PACKING_H

#include "blob.h"

/* The values of a row. What is NULL or of a wrong type has no flag, or is a number out of range. */
typedef struct {
    const char *kind;        /* NULL: no text */
    const uint8_t *polyline; /* may be NULL if it is empty */
    size_t kind_length, polyline_length;
    int64_t depth, id, precision;
    bool has_id, is_bad_id, has_precision;
} twkb_values;

/* A depth or a precision that is none. */
#define TWKB_NO_NUMBER INT64_MIN

/* Rows and points so far. After a row that is refused, by its values or as a second geometry, no more are taken. */
typedef struct {
    polytwkb_row *rows;
    polytwkb_point *points;
    uint64_t row_count, row_room, point_count, point_room;
    uint64_t text_length; /* of all polylines */
    uint64_t text_offset; /* where the polyline of the refused row is refused */
    uint32_t reason;      /* why the last row is refused, 0 if its values are fine */
    uint32_t style;
    bool is_stored; /* the refused row is stored without its faulty value, so that rules that come first see it */
    bool is_second; /* the refused row is the first of a second geometry */
    bool is_full;   /* there are more rows than a geometry may have, so one of them is refused */
    bool has_style;
} twkb_packing;

static const char twkb_second[] = "more than one geometry";
static const char twkb_bad_style[] = "a style is 'full' or 'plain', the same for all rows";

/* The place of a reason among those of a row, in the order in which a row is judged. */
static uint32_t twkb_rank(uint32_t reason) { return reason >= POLYTWKB_POLYLINE_BAD_CHARACTER ? 15 : reason; }

/* Makes an array at least as long as this. */
static bool twkb_grow(void **array, uint64_t *room, uint64_t count, size_t size) {
    if (count <= *room) return true;
    uint64_t more = *room < 8 ? 16 : 2 * *room;
    if (more < count) more = count;
    void *grown = twkb_grown(*array, more * size);
    if (!grown) return false;
    *array = grown, *room = more;
    return true;
}

static void twkb_refuse_row(twkb_packing *it, uint32_t reason, bool is_stored) {
    if (it->reason) return;
    it->reason = reason, it->is_stored = is_stored;
}

/* Decodes the polyline of a row after the points of the rows before it. */
static twkb_end twkb_put_points(twkb_packing *it, const twkb_values *values, polytwkb_row *row) {
    uint64_t left = polytwkb_standard_limits().points - it->point_count, room = values->polyline_length / 2;
    if (room > left) room = left;
    if (!twkb_grow((void **)&it->points, &it->point_room, it->point_count + room, sizeof *it->points)) {
        return TWKB_NO_MEMORY;
    }
    polytwkb_report report =
        polytwkb_decode(values->polyline, values->polyline_length, it->points + it->point_count, room);
    if (report.status == POLYTWKB_MEMORY) return TWKB_NO_MEMORY;
    if (report.status != POLYTWKB_DONE) {
        it->text_offset = report.text_offset;
        twkb_refuse_row(it, report.status == POLYTWKB_REFUSED ? report.reason : POLYTWKB_POLYLINE_TOO_MANY, true);
        return TWKB_DONE;
    }
    row->points = report.sent, it->point_count += report.sent;
    it->text_length += values->polyline_length;
    return TWKB_DONE;
}

/* The row of values whose depth and kind are fine. Its first value that is not is refused, and left out. */
static twkb_end twkb_row_of(twkb_packing *it, const twkb_values *values, polytwkb_row *row) {
    if (values->is_bad_id) twkb_refuse_row(it, POLYTWKB_BAD_ID, true);
    if (values->has_id && !values->is_bad_id) row->has_id = 1, row->id = values->id;
    if (values->has_precision) {
        if (-8 <= values->precision && values->precision <= 7) {
            row->precision = (int8_t)values->precision;
        } else {
            twkb_refuse_row(it, POLYTWKB_BAD_PRECISION, true);
        }
    }
    if (values->polyline_length == 0 || it->reason) return TWKB_DONE;
    if (twkb_has_points(row->kind)) return twkb_put_points(it, values, row);
    twkb_refuse_row(it, POLYTWKB_POLYLINE_NOT_ALLOWED, true);
    return TWKB_DONE;
}

/* Puts a row. After one that is refused no row is looked at. */
static twkb_end twkb_put_row(twkb_packing *it, const twkb_values *values) {
    if (it->reason || it->is_second || it->is_full) return TWKB_DONE;
    polytwkb_row row = {.depth = (uint32_t)values->depth, .precision = POLYTWKB_NO_PRECISION};
    row.kind = values->kind ? twkb_kind_of(values->kind, values->kind_length) : 0;
    if (values->depth < 0 || values->depth > 999) twkb_refuse_row(it, POLYTWKB_BAD_DEPTH, false);
    if (row.kind == 0) twkb_refuse_row(it, POLYTWKB_BAD_KIND, false);
    if (it->reason) return TWKB_DONE;
    if (values->depth == 0 && it->row_count > 0) {
        it->is_second = true;
        return TWKB_DONE;
    }
    if (!twkb_grow((void **)&it->rows, &it->row_room, it->row_count + 1, sizeof row)) return TWKB_NO_MEMORY;
    twkb_end end = twkb_row_of(it, values, &row);
    it->rows[it->row_count++] = row;
    it->is_full = it->row_count > polytwkb_standard_limits().nodes;
    return end;
}

/* The fault of a row, which is named by its number from 1 if there are more rows. */
static twkb_end twkb_row_fault(uint64_t row, const char *words, bool is_only, twkb_fault_text *fault) {
    if (is_only) {
        snprintf(fault->text, sizeof fault->text, "%s", words);
    } else {
        snprintf(fault->text, sizeof fault->text, "row %llu: %s", (unsigned long long)row + 1, words);
    }
    return TWKB_REFUSED;
}

static twkb_end twkb_row_refused(const twkb_packing *it, uint64_t row, uint32_t reason, bool is_only,
                                 twkb_fault_text *fault) {
    char words[POLYTWKB_TEXT_ROOM], whole[POLYTWKB_TEXT_ROOM + 48];
    polytwkb_reason_text(reason, words, sizeof words);
    if (reason < POLYTWKB_POLYLINE_BAD_CHARACTER || reason == POLYTWKB_POLYLINE_TOO_MANY) {
        return twkb_row_fault(row, words, is_only, fault);
    }
    snprintf(whole, sizeof whole, "polyline at %llu: %s", (unsigned long long)it->text_offset, words);
    return twkb_row_fault(row, whole, is_only, fault);
}

/* How the rows end, by the report of their writing: the first rule that the first refused row breaks. */
static twkb_end twkb_judge(const twkb_packing *it, const polytwkb_report *report, bool is_only,
                           twkb_fault_text *fault) {
    uint64_t last = it->row_count - (it->reason && it->is_stored);
    if (report->status == POLYTWKB_MEMORY || (report->status == POLYTWKB_TOO_SMALL && report->needed == 0)) {
        return TWKB_NO_MEMORY;
    }
    if (report->status == POLYTWKB_REFUSED && report->reason == POLYTWKB_POINTS_LEFT) {
        return TWKB_NO_MEMORY; /* this cannot be: all points are those of the rows */
    }
    if (report->status == POLYTWKB_REFUSED) {
        bool is_first = report->place < last || !it->reason || twkb_rank(report->reason) < twkb_rank(it->reason);
        return twkb_row_refused(it, report->place, is_first ? report->reason : it->reason, is_only, fault);
    }
    if (it->reason) return twkb_row_refused(it, last, it->reason, is_only, fault);
    if (it->is_second) return twkb_row_fault(it->row_count, twkb_second, is_only, fault);
    return TWKB_DONE;
}

/* Room that does: a varint is no longer than the number of a polyline, and a row has up to 82 bytes more. */
static size_t twkb_blob_guess(const twkb_packing *it) { return it->text_length + 100 * it->row_count; }

/* Writes the blob of the rows. No rows have none, and then the length is 0. */
static twkb_end twkb_finish(const twkb_packing *it, bool is_only, twkb_output *output, twkb_fault_text *fault) {
    size_t room = twkb_blob_guess(it);
    output->length = 0;
    if (it->row_count == 0 && !it->reason) return TWKB_DONE;
    for (;;) {
        if (!twkb_make_room(output, room)) return TWKB_NO_MEMORY;
        polytwkb_report report =
            polytwkb_write(it->rows, it->row_count, it->points, it->point_count, output->memory + output->front,
                           output->room, NULL, 0, polytwkb_standard_limits(), it->style, 0);
        output->length = report.sent;
        twkb_end end = twkb_judge(it, &report, is_only, fault);
        if (end != TWKB_DONE || report.status == POLYTWKB_DONE) return end;
        room = report.needed;
    }
}

/* Sets the style by its word, which is the same for all rows; whether it is. */
static bool twkb_set_style(twkb_packing *it, const char *word, size_t length) {
    bool is_full = length == 4 && memcmp(word, "full", 4) == 0;
    bool is_plain = length == 5 && memcmp(word, "plain", 5) == 0;
    uint32_t style = is_plain ? POLYTWKB_PLAIN : POLYTWKB_FULL;
    if ((!is_full && !is_plain) || (it->has_style && it->style != style)) return false;
    it->style = style, it->has_style = true;
    return true;
}

#endif
