// Reads a stream into arrays of rows and points, into each room, with guard bytes round each array, and writes them back as the
// stream; then the rows of a refused stream, and refused rows.
#include <polytwkb.h>

#include <stdio.h>
#include <stdlib.h>
#include <string.h>

enum { GUARD = 32, GUARD_BYTE = 0xA5, ROWS = 4, POINTS = 3 };

// A collection of the point (1, 1) with the id 7 and an empty linestring with the id -1, and the linestring from (1, 1) to (5, 5).
static const uint8_t blobs[] = {0x07, 0x04, 0x02, 0x0e, 0x01, 0x01, 0x00, 0x02, 0x02,
                                0x02, 0x10, 0x02, 0x00, 0x02, 0x02, 0x02, 0x08, 0x08};

static const polytwkb_row rows[ROWS] = {
    {0, 0, 0, POLYTWKB_KIND_COLLECTION, 0, 0},
    {7, 1, 1, POLYTWKB_KIND_POINT, 1, 0},
    {-1, 0, 1, POLYTWKB_KIND_LINESTRING, 1, 0},
    {0, 2, 0, POLYTWKB_KIND_LINESTRING, 0, 0},
};

static const polytwkb_point points[POINTS] = {{1, 1}, {1, 1}, {5, 5}};

static void check(int holds, const char *what) {
    if (!holds) {
        fprintf(stderr, "wrong: %s\n", what);
        exit(1);
    }
}

// An array of this many bytes between two guards.
static void *guarded(size_t bytes) {
    uint8_t *whole = malloc(bytes + 2 * GUARD);
    check(whole != NULL, "no memory");
    memset(whole, GUARD_BYTE, bytes + 2 * GUARD);
    return whole + GUARD;
}

// Frees an array, whose guards and whose bytes after the first `written` are as they were.
static void release(void *array, size_t bytes, size_t written) {
    uint8_t *first = array;
    for (size_t i = 1; i <= GUARD; i++) check(first[-(ptrdiff_t)i] == GUARD_BYTE, "the guard before an array");
    for (size_t i = written; i < bytes + GUARD; i++) check(first[i] == GUARD_BYTE, "bytes after the rows or points");
    free(first - GUARD);
}

// The bytes of the first blob.
enum { FIRST = 11 };

// Where each blob ends.
static const uint64_t ends[] = {FIRST, sizeof blobs};

// Reads the first bytes of the stream into this much room, with these flags, and checks all that was written.
static polytwkb_counts read_into(size_t length, size_t row_room, size_t point_room, size_t end_room, uint32_t flags) {
    polytwkb_row *to_rows = guarded(row_room * sizeof *to_rows);
    polytwkb_point *to_points = guarded(point_room * sizeof *to_points);
    uint64_t *to_ends = guarded(end_room * sizeof *to_ends);
    polytwkb_counts counts = polytwkb_read(blobs, length, to_rows, row_room, to_points, point_room, to_ends, end_room,
                                           polytwkb_standard_limits(), flags);
    check(counts.rows <= row_room && counts.points <= point_room, "no more than there is room for");
    check(counts.taken == (counts.done == 0 ? 0 : ends[counts.done - 1]), "the bytes taken");
    size_t end_count = end_room == 0 ? 0 : counts.done;
    check(end_count <= end_room && memcmp(to_ends, ends, end_count * sizeof *ends) == 0, "the ends");
    release(to_ends, end_room * sizeof *to_ends, end_count * sizeof *to_ends);
    check(memcmp(to_rows, rows, counts.rows * sizeof *rows) == 0, "the rows");
    check(memcmp(to_points, points, counts.points * sizeof *points) == 0, "the points");
    release(to_rows, row_room * sizeof *to_rows, counts.rows * sizeof *rows);
    release(to_points, point_room * sizeof *to_points, counts.points * sizeof *points);
    return counts;
}

// Room for all, for the first geometry alone, or for none, with each number of ends, to the end and as far as there is room.
static void each_room(void) {
    for (size_t row_room = 0; row_room <= ROWS + 1; row_room++) {
        for (size_t point_room = 0; point_room <= POINTS + 1; point_room++) {
            for (unsigned end_room = 0; end_room <= 6; end_room++) {
                uint32_t flags = end_room % 2;
                polytwkb_counts counts = read_into(sizeof blobs, row_room, point_room, end_room / 2, flags);
                unsigned done = row_room < 3 || point_room < 1 ? 0 : row_room < ROWS || point_room < POINTS ? 1 : 2;
                if (end_room / 2 == 1 && done == 2) done = 1;
                check(counts.status == (done == 2 ? POLYTWKB_DONE : POLYTWKB_TOO_SMALL) && counts.done == done,
                      "the status");
                check(counts.rows == (done == 2 ? ROWS : done == 1 ? 3 : 0), "whole geometries");
                int stopped = flags == POLYTWKB_STOP_IF_FULL && done == 0;
                check(counts.needed_rows == (stopped ? 3 : ROWS) && counts.needed_points == (stopped ? 1 : POINTS),
                      "what would do");
            }
        }
    }
}

// Reads on from where each call came to: a window of 12 bytes, or all the rest, and room for one geometry.
static void each_piece(void) {
    size_t at = 0, row_count = 0, point_count = 0;
    for (size_t calls = 0; at < sizeof blobs; calls++) {
        polytwkb_row to_rows[3];
        polytwkb_point to_points[2];
        size_t left = sizeof blobs - at, window = left < 12 ? left : 12;
        polytwkb_counts counts = polytwkb_read(blobs + at, window, to_rows, 3, to_points, 2, NULL, 0,
                                               polytwkb_standard_limits(), POLYTWKB_STOP_IF_FULL);
        check(calls < 2 && counts.done == 1, "one geometry a call");
        check(memcmp(to_rows, rows + row_count, counts.rows * sizeof *rows) == 0, "the next rows");
        check(memcmp(to_points, points + point_count, counts.points * sizeof *points) == 0, "the next points");
        at += counts.taken, row_count += counts.rows, point_count += counts.points;
    }
    check(row_count == ROWS && point_count == POINTS, "all rows and points");
}

// Writes the first rows and points into this much room, and checks all that was written.
static polytwkb_report write_into(size_t row_count, size_t point_count, size_t room, size_t end_room, uint32_t flags) {
    uint8_t *output = guarded(room);
    uint64_t to_ends[3] = {9, 9, 9};
    polytwkb_report report = polytwkb_write(rows, row_count, points, point_count, output, room, to_ends, end_room,
                                            polytwkb_standard_limits(), POLYTWKB_PLAIN, flags);
    check(report.sent <= room && report.text_offset == 0, "no more than there is room for");
    check(memcmp(output, blobs, report.sent) == 0, "the blobs");
    check(report.taken == (report.done == 2 ? ROWS : report.done == 1 ? 3 : 0), "the rows that they took");
    check(report.taken_points == (report.done == 2 ? POINTS : report.done == 1 ? 1 : 0), "and the points");
    size_t count = end_room == 0 ? 0 : report.done;
    for (size_t i = 0; i < 3; i++) check(to_ends[i] == (i < count ? ends[i] : 9), "the ends");
    release(output, room, report.sent);
    return report;
}

// Room for all blobs, for the first alone, or for none; and for all ends, for one, or for none, which are not asked for.
static void each_output(void) {
    for (size_t call = 0; call < 6 * (sizeof blobs + 2); call++) {
        size_t room = call / 6, end_room = call / 2 % 3;
        uint32_t flags = call % 2;
        polytwkb_report report = write_into(ROWS, POINTS, room, end_room, flags);
        unsigned done = room < FIRST ? 0 : room < sizeof blobs || end_room == 1 ? 1 : 2;
        check(report.status == (done == 2 ? POLYTWKB_DONE : POLYTWKB_TOO_SMALL) && report.done == done, "the status");
        check(report.sent == (done == 2 ? sizeof blobs : done == 1 ? FIRST : 0), "whole blobs");
        check(report.needed == (done == 0 && flags ? FIRST : sizeof blobs), "what would do");
    }
}

// Writes the rows by rooms for one blob: each call goes on from what the one before took.
static void each_part(void) {
    uint8_t output[sizeof blobs];
    size_t sent = 0, row = 0, point = 0;
    for (size_t calls = 0; row < ROWS; calls++) {
        polytwkb_report report =
            polytwkb_write(rows + row, ROWS - row, points + point, POINTS - point, output + sent, FIRST, NULL, 0,
                           polytwkb_standard_limits(), POLYTWKB_PLAIN, POLYTWKB_STOP_IF_FULL);
        check(calls < 2 && report.done == 1, "one blob a call");
        sent += report.sent, row += report.taken, point += report.taken_points;
    }
    check(sent == sizeof blobs && point == POINTS && memcmp(output, blobs, sent) == 0, "all blobs");
}

// A point too few, a point too many, a row that has no parent, and arguments out of range.
static void each_refusal(void) {
    polytwkb_report few = write_into(ROWS, POINTS - 1, sizeof blobs, 2, 0);
    check(few.status == POLYTWKB_REFUSED && few.reason == POLYTWKB_POINTS_MISSING && few.place == ROWS - 1,
          "a point too few");
    check(few.done == 1 && few.sent == FIRST && few.needed == FIRST, "the blob before it");
    polytwkb_report left = write_into(ROWS - 1, POINTS, sizeof blobs, 2, 0);
    check(left.status == POLYTWKB_REFUSED && left.reason == POLYTWKB_POINTS_LEFT && left.place == ROWS - 1,
          "a point too many");
    check(left.done == 0 && left.sent == 0, "no blob of the last geometry");
    polytwkb_limits limits = polytwkb_standard_limits();
    polytwkb_row line = {0, 3, 0, POLYTWKB_KIND_LINESTRING, 0, 0};
    polytwkb_point far[] = {{1, 1}, {0, -INT64_C(0x4000000000000000)}, {0, INT64_C(0x4000000000000000)}};
    polytwkb_report outside = polytwkb_write(&line, 1, far, 3, NULL, 0, NULL, 0, limits, POLYTWKB_FULL, 0);
    check(outside.status == POLYTWKB_REFUSED && outside.reason == POLYTWKB_POLYLINE_RANGE, "a point out of range");
    check(outside.place == 0 && outside.text_offset == 2, "the third point, not the least one");
    polytwkb_report below = polytwkb_write(rows + 1, 1, points, 1, NULL, 0, NULL, 0, limits, POLYTWKB_FULL, 0);
    check(below.status == POLYTWKB_REFUSED && below.reason == POLYTWKB_BAD_PLACE && below.place == 0,
          "a row without a parent");
    check(polytwkb_write(NULL, 0, NULL, 0, NULL, 0, NULL, 0, limits, POLYTWKB_FULL, 0).status == POLYTWKB_DONE,
          "no rows, no points");
    check(polytwkb_write(NULL, 0, NULL, 0, NULL, 0, NULL, 0, limits, 2, 0).status == POLYTWKB_ARGUMENTS,
          "a style out of range");
    check(polytwkb_write(NULL, 0, NULL, 0, NULL, 0, NULL, 0, limits, POLYTWKB_FULL, 2).status == POLYTWKB_ARGUMENTS,
          "a flag out of range");
    limits.nest = 33;
    check(polytwkb_write(NULL, 0, NULL, 0, NULL, 0, NULL, 0, limits, POLYTWKB_FULL, 0).status == POLYTWKB_ARGUMENTS,
          "a limit out of range");
}

// The polygon with a hole and the multipoint with ids of the header's comment on rows, and their blobs, worked by hand from TWKB.
static void header_example(void) {
    static const polytwkb_row example_rows[] = {
        {0, 0, 0, POLYTWKB_KIND_POLYGON, 0, 5},
        {0, 4, 1, POLYTWKB_KIND_RING, 0, POLYTWKB_NO_PRECISION},
        {0, 4, 1, POLYTWKB_KIND_RING, 0, POLYTWKB_NO_PRECISION},
        {0, 0, 0, POLYTWKB_KIND_MULTIPOINT, 0, 5},
        {7, 1, 1, POLYTWKB_KIND_POINT, 1, POLYTWKB_NO_PRECISION},
        {-1, 1, 1, POLYTWKB_KIND_POINT, 1, POLYTWKB_NO_PRECISION},
    };
    static const polytwkb_point example_points[] = {
        {0, 0},
        {900000, 0},
        {0, 900000},
        {0, 0},
        {100000, 100000},
        {200000, 100000},
        {100000, 200000},
        {100000, 100000},
        {1337770, 5251630},
        {-7404450, 4068920},
    };
    static const uint8_t example_blobs[] = {
        0xa3, 0x00, 0x02, 0x04, 0x00, 0x00, 0xc0, 0xee, 0x6d, 0x00, 0xbf, 0xee, 0x6d, 0xc0, 0xee, 0x6d,
        0x00, 0xbf, 0xee, 0x6d, 0x04, 0xc0, 0x9a, 0x0c, 0xc0, 0x9a, 0x0c, 0xc0, 0x9a, 0x0c, 0x00, 0xbf,
        0x9a, 0x0c, 0xc0, 0x9a, 0x0c, 0x00, 0xbf, 0x9a, 0x0c, 0xa4, 0x04, 0x02, 0x0e, 0x01, 0xd4, 0xa6,
        0xa3, 0x01, 0xdc, 0x88, 0x81, 0x05, 0x97, 0x95, 0xab, 0x08, 0xeb, 0xaf, 0x90, 0x01,
    };
    uint8_t output[sizeof example_blobs];
    polytwkb_report report = polytwkb_write(example_rows, 6, example_points, 10, output, sizeof output, NULL, 0,
                                            polytwkb_standard_limits(), POLYTWKB_PLAIN, 0);
    check(report.status == POLYTWKB_DONE && report.done == 2 && report.sent == sizeof output,
          "the header's example is written");
    check(memcmp(output, example_blobs, sizeof output) == 0, "the blobs of the header's example");
    polytwkb_row to_rows[6];
    polytwkb_point to_points[10];
    polytwkb_counts counts =
        polytwkb_read(output, sizeof output, to_rows, 6, to_points, 10, NULL, 0, polytwkb_standard_limits(), 0);
    check(counts.status == POLYTWKB_DONE && memcmp(to_rows, example_rows, sizeof to_rows) == 0, "and is read back");
    check(memcmp(to_points, example_points, sizeof to_points) == 0, "with its points");
}

int main(void) {
    check(sizeof(polytwkb_row) == 24 && sizeof(polytwkb_counts) == 80 && sizeof(polytwkb_report) == 80, "the layouts");
    each_room();
    each_piece();
    each_output();
    each_part();
    each_refusal();
    header_example();

    polytwkb_counts cut = read_into(sizeof blobs - 1, ROWS, POINTS, 2, 0);
    check(cut.status == POLYTWKB_REFUSED && cut.reason == POLYTWKB_BLOB_TRUNCATED && cut.place == sizeof blobs - 1,
          "a cut blob");
    check(cut.done == 1 && cut.rows == 3 && cut.points == 1, "the geometry before it");

    polytwkb_counts none = polytwkb_read(NULL, 0, NULL, 0, NULL, 0, NULL, 0, polytwkb_standard_limits(), 0);
    check(none.status == POLYTWKB_DONE && none.done == 0, "no bytes, no arrays");
    polytwkb_limits wrong = {33, 1, 0};
    check(polytwkb_read(blobs, sizeof blobs, NULL, 0, NULL, 0, NULL, 0, wrong, 0).status == POLYTWKB_ARGUMENTS,
          "a limit out of range");
    check(polytwkb_read(blobs, sizeof blobs, NULL, 0, NULL, 0, NULL, 0, polytwkb_standard_limits(), 2).status ==
              POLYTWKB_ARGUMENTS,
          "a flag out of range");

    printf("%zu bytes of blobs are %d rows and %d points, and back\n", sizeof blobs, ROWS, POINTS);
    return 0;
}
