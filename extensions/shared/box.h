/* The box of the points of a blob, in degrees. A box that the blob has is not read: nothing compares it with the points. */
#ifndef POLYTWKB_BOX_H
#define POLYTWKB_BOX_H

#include "blob.h"

typedef struct {
    double minx, maxx, miny, maxy;
} twkb_box;

static void twkb_widen(twkb_box *box, double x, double y) {
    if (x < box->minx) box->minx = x;
    if (x > box->maxx) box->maxx = x;
    if (y < box->miny) box->miny = y;
    if (y > box->maxy) box->maxy = y;
}

/* Widens a box by the points of a row: their units are compared, as that of four numbers takes fewer divisions. */
static void twkb_widen_by(twkb_box *box, const polytwkb_point *points, uint64_t count, int precision) {
    polytwkb_point least = points[0], most = points[0];
    for (uint64_t place = 1; place < count; place++) {
        const polytwkb_point *point = &points[place];
        if (point->x < least.x) least.x = point->x;
        if (point->x > most.x) most.x = point->x;
        if (point->y < least.y) least.y = point->y;
        if (point->y > most.y) most.y = point->y;
    }
    twkb_widen(box, twkb_degrees(least.x, precision), twkb_degrees(least.y, precision));
    twkb_widen(box, twkb_degrees(most.x, precision), twkb_degrees(most.y, precision));
}

/* The box of all points of a blob; false if it has none. */
static bool twkb_box_of(const twkb_arrays *found, twkb_box *box) {
    const polytwkb_point *points = found->points;
    int precision = 0;
    *box = (twkb_box){HUGE_VAL, -HUGE_VAL, HUGE_VAL, -HUGE_VAL};
    for (uint64_t place = 0; place < found->row_count; place++) {
        const polytwkb_row *row = &found->rows[place];
        if (row->precision != POLYTWKB_NO_PRECISION) precision = row->precision;
        if (row->points > 0) twkb_widen_by(box, points, row->points, precision);
        points += row->points;
    }
    return found->point_count > 0;
}

#endif
