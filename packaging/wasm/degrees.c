/*
 * Points of arrays from whole units to degrees and back, each in its place. Not proved; js/tests compares them with
 * fractions and with the native library.
 *
 * Each call converts the points of rows, by the precision of the geometry that they are in, up to the first point that
 * it leaves to the caller, and returns how many come before it.
 */
#include "library.h"

typedef long units __attribute__((vector_size(16)));
typedef double degrees __attribute__((vector_size(16)));

union point {
    units units;
    degrees degrees;
};

#define NO_PRECISION -128
#define OUTSIDE (1l << 62) /* what a number becomes that has no unit: `write` refuses it */
#define PART 512           /* numbers that one call rounds */

/*
 * The last bit of a double from 2^52 to 2^53 counts ones. So the bits of SHIFT + n are n more than those of SHIFT, for n
 * from -NEAR to below NEAR.
 */
#define SHIFT 0x1.8p52
#define SHIFT_BITS 0x4338000000000000l
#define NEAR (1l << 51)

/* What units are multiplied by and then divided by. One is 1, so that a product or quotient is rounded once. */
struct scale {
    double times, over;
};

static struct scale scale_of(int precision) {
    static const double powers[] = {1e0, 1e1, 1e2, 1e3, 1e4, 1e5, 1e6, 1e7, 1e8};
    return (struct scale){powers[precision < 0 ? -precision : 0], powers[precision < 0 ? 0 : precision]};
}

/*
 * Leaves a point with units that are not near. Near ones are exact as doubles, so each result is the nearest double.
 */
static u64 to_degrees_of(union point *points, u64 count, int precision) {
    const struct scale scale = scale_of(precision);
    for (u64 place = 0; place < count; place++) {
        const units number = points[place].units, above = number + NEAR;
        if ((u64)(above[0] | above[1]) >= 2 * NEAR) return place;
        points[place].degrees = ((degrees)(number + SHIFT_BITS) - SHIFT) * scale.times / scale.over;
    }
    return count;
}

/*
 * Leaves a point with a number that is not finite. The library rounds all numbers. Its input is apart from its output,
 * so the numbers are copied, a part at a time.
 */
static u64 to_units_of(union point *points, u64 count, int precision) {
    static double numbers[PART];
    static struct report report;
    long *to = (long *)points;
    for (u64 done = 0; done < 2 * count;) {
        const u64 left = 2 * count - done, some = left < PART ? left : PART;
        __builtin_memcpy(numbers, to + done, some * sizeof *numbers);
        polytwkb_round(&report, numbers, some, precision, to + done, some);
        done += report.sent;
        if (report.sent == some) continue;
        const double refused = numbers[report.sent];
        if (refused - refused != 0) return done / 2;
        to[done++] = OUTSIDE;
    }
    return count;
}

/* The precision of a row's points. One that is out of range is refused by `write`. */
static int precision_of(const struct row *row, int before) {
    if (row->precision == NO_PRECISION) return before;
    return row->precision < -8 || row->precision > 7 ? 0 : row->precision;
}

/* Converts the points of rows of one precision by one call. Points that are missing are refused by `write`. */
static inline __attribute__((always_inline)) u32 converted(u32 rows, u32 row_count, u32 points, u32 count,
                                                           u64 convert(union point *, u64, int)) {
    const struct row *row = (const struct row *)AT(rows), *end = row + row_count;
    union point *all = (union point *)AT(points);
    u64 start = 0;
    int precision = 0;
    while (row < end) {
        u64 stop = start;
        precision = precision_of(row, precision);
        for (; row < end && precision_of(row, precision) == precision; row++) {
            const u64 left = count - stop;
            stop += row->points < left ? row->points : left;
        }
        const u64 done = convert(all + start, stop - start, precision);
        if (done < stop - start) return (u32)(start + done);
        start = stop;
    }
    return count;
}

u32 to_degrees(u32 rows, u32 row_count, u32 points, u32 count) {
    return converted(rows, row_count, points, count, to_degrees_of);
}

u32 to_units(u32 rows, u32 row_count, u32 points, u32 count) {
    return converted(rows, row_count, points, count, to_units_of);
}
