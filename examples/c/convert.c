// Packs, shows and unpacks a line in memory, with guard bytes round each buffer; then its polyline and its points, the texts of reasons and of the version.
#include <polytwkb.h>

#include <math.h>
#include <stdio.h>
#include <stdlib.h>
#include <string.h>

enum { GUARD = 32, GUARD_BYTE = 0xA5 };

// The line from (1, 1) to (5, 5), and the blob that PostGIS writes of it.
static const char table[] = "depth,kind,id,precision,polyline\n0,linestring,,0,AAGG\n";
static const uint8_t blob[] = {0x02, 0x00, 0x02, 0x02, 0x02, 0x08, 0x08};
static const char lines[] = "0 0 linestring 0 00 7 2\n";
static const char geojson[] = "{\"type\":\"LineString\",\"coordinates\":[[1,1],[5,5]]}\n";
static const uint8_t header[] = {0, 0, 0, 0, 0, 0, 0, 0, 7, 0, 0, 0, 0, 0, 0, 0,
                                 2, 0, 0, 0, 0, 0, 0, 0, 0, 0, 0, 0, 2, 0, 0, 0};

static void check(int holds, const char *what) {
    if (!holds) {
        fprintf(stderr, "wrong: %s\n", what);
        exit(1);
    }
}

// A buffer of this length between two guards.
static uint8_t *guarded(size_t length) {
    uint8_t *whole = malloc(length + 2 * GUARD);
    check(whole != NULL, "no memory");
    memset(whole, GUARD_BYTE, length + 2 * GUARD);
    return whole + GUARD;
}

// Frees a buffer, whose guards and whose bytes behind `sent` are as they were.
static void release(uint8_t *buffer, size_t length, size_t sent) {
    for (size_t i = 1; i <= GUARD; i++) check(buffer[-(ptrdiff_t)i] == GUARD_BYTE, "guard in front");
    for (size_t i = sent; i < length + GUARD; i++) check(buffer[i] == GUARD_BYTE, "bytes behind the output");
    free(buffer - GUARD);
}

// Runs a conversion, or packing in the plain style.
static polytwkb_report convert(uint32_t conversion, const uint8_t *input, size_t input_length, uint8_t *output,
                               size_t output_length) {
    polytwkb_limits limits = polytwkb_standard_limits();
    switch (conversion) {
    case POLYTWKB_PACK: return polytwkb_pack(input, input_length, output, output_length, limits, POLYTWKB_PLAIN);
    case POLYTWKB_UNPACK: return polytwkb_unpack(input, input_length, output, output_length, limits);
    case POLYTWKB_SHOW: return polytwkb_show(input, input_length, output, output_length, limits);
    default: return polytwkb_convert(conversion, input, input_length, output, output_length, NULL);
    }
}

// Into each room from none to what the output needs and one more, the front of the right output is written.
static void each_room(uint32_t conversion, const void *given, size_t given_length, const void *due, size_t due_length) {
    polytwkb_report whole =
        polytwkb_measure(conversion, given, given_length, polytwkb_standard_limits(), POLYTWKB_PLAIN);
    check(whole.status == POLYTWKB_DONE && whole.done == 1 && whole.sent == 0 && whole.needed == due_length, "measure");
    for (size_t room = 0; room <= due_length + 1; room++) {
        uint8_t *input = guarded(given_length);
        uint8_t *output = guarded(room);
        memcpy(input, given, given_length);
        polytwkb_report report = convert(conversion, input, given_length, output, room);
        check(report.status == (room < due_length ? POLYTWKB_TOO_SMALL : POLYTWKB_DONE), "status");
        check(report.needed == due_length, "needed");
        check(report.sent <= room && memcmp(output, due, report.sent) == 0, "a front of the output");
        check(report.status != POLYTWKB_DONE || (report.sent == due_length && report.done == 1), "the whole output");
        check(memcmp(input, given, given_length) == 0, "the input as it was");
        release(input, given_length, given_length);
        release(output, room, report.sent);
    }
}

// The headers of a collection of a point with an id and an empty line with one are read as structs, after as many of them as are measured.
static void headers(void) {
    static const uint8_t members[] = {0x07, 0x07, 0x0F, 0x02, 0x00, 0x02, 0x00, 0x02, 0x0E,
                                      0x01, 0x01, 0x02, 0x02, 0x02, 0x02, 0x02, 0x12, 0x00};
    static const polytwkb_header due[] = {{0, 18, 1, 0, POLYTWKB_KIND_COLLECTION, 0, 0x07, 0},
                                          {10, 5, 1, 1, POLYTWKB_KIND_POINT, 0, 0x02, 0},
                                          {15, 3, 0, 1, POLYTWKB_KIND_LINESTRING, 0, 0x12, 0}};
    static const uint8_t negative[] = {0xF1, 0x02, 0x02, 0x04, 0x02};
    polytwkb_header found[4];
    check(sizeof *found == 32, "the size of a header");
    polytwkb_report report =
        polytwkb_convert(POLYTWKB_HEADERS, members, sizeof members, (uint8_t *)found, sizeof found, NULL);
    check(report.status == POLYTWKB_DONE && report.sent == sizeof due && report.done == 1, "the headers of a blob");
    check(memcmp(found, due, sizeof due) == 0, "a header as a struct");
    report = polytwkb_convert(POLYTWKB_HEADERS, negative, sizeof negative, (uint8_t *)found, sizeof found, NULL);
    check(report.sent == sizeof *found && found->precision == -8 && found->length == 5, "a precision below 0");
}

// A call that writes a text into a room.
typedef size_t writer(uint32_t reason, char *text, size_t room);

static size_t version(uint32_t reason, char *text, size_t room) {
    (void)reason;
    return polytwkb_version(text, room);
}

// Into each room from none to one more than the text and its NUL need, as much of the text is written as fits in front of a NUL.
static void each_text_room(writer *write, uint32_t reason, const char *due) {
    size_t length = strlen(due);
    check(length < POLYTWKB_TEXT_ROOM, "the room of every text");
    check(write(reason, NULL, 0) == length, "the length of a text alone");
    for (size_t room = 0; room <= length + 2; room++) {
        char *text = (char *)guarded(room);
        check(write(reason, text, room) == length, "the length of a text");
        size_t sent = length < room ? length : room - (room > 0);
        check(memcmp(text, due, sent) == 0, "the front of a text");
        check(room == 0 || text[sent] == '\0', "the NUL after a text");
        release((uint8_t *)text, room, room == 0 ? 0 : sent + 1);
    }
}

// Texts of the least and the greatest reason of each kind, of the longest, and of numbers that are no reason: as docs/FORMATS.md has them.
static void texts(void) {
    each_text_room(polytwkb_reason_text, POLYTWKB_BAD_HEADER, "bad header");
    each_text_room(polytwkb_reason_text, POLYTWKB_TOO_MANY_ROWS, "too many rows in one geometry");
    each_text_room(polytwkb_reason_text, POLYTWKB_POINT_COUNT, "wrong number of points");
    each_text_room(polytwkb_reason_text, POLYTWKB_POLYLINE_BAD_CHARACTER, "bad character");
    each_text_room(polytwkb_reason_text, POLYTWKB_POLYLINE_TOO_MANY, "too many points");
    each_text_room(polytwkb_reason_text, POLYTWKB_BLOB_TRUNCATED, "truncated");
    each_text_room(polytwkb_reason_text, POLYTWKB_BLOB_SIZE_MISMATCH, "size mismatch");
    each_text_room(polytwkb_reason_text, POLYTWKB_TOO_LONG, "input or output too long");
    each_text_room(polytwkb_reason_text, POLYTWKB_TOO_MANY_RECORDS, "too many records");
    each_text_room(polytwkb_reason_text, 0, "");
    each_text_room(polytwkb_reason_text, 15, "");
    each_text_room(polytwkb_reason_text, UINT32_MAX, "");
}

// The library is that of the header, whose macros agree.
static void versions(void) {
    char numbers[64];
    snprintf(numbers, sizeof numbers, "%d.%d.%d", POLYTWKB_VERSION_MAJOR, POLYTWKB_VERSION_MINOR,
             POLYTWKB_VERSION_PATCH);
    check(strcmp(numbers, POLYTWKB_VERSION) == 0, "the numbers of the version");
    each_text_room(version, 0, POLYTWKB_VERSION);
}

// A buffer of length 0 may be NULL.
static void no_buffers(void) {
    polytwkb_limits limits = polytwkb_standard_limits();
    polytwkb_report report = polytwkb_unpack(NULL, 0, NULL, 0, limits);
    check(report.status == POLYTWKB_TOO_SMALL && report.needed == 33, "the header's line of no blobs");
    report = polytwkb_show(NULL, 0, NULL, 0, limits);
    check(report.status == POLYTWKB_DONE && report.sent == 0, "no lines of no blobs");
    report = polytwkb_pack(NULL, 0, NULL, 0, limits, POLYTWKB_FULL);
    check(report.status == POLYTWKB_REFUSED && report.reason == POLYTWKB_BAD_HEADER && report.place == 1,
          "a table without a header");
    report = polytwkb_pack((const uint8_t *)table, sizeof table - 1, NULL, 0, limits, POLYTWKB_PLAIN);
    check(report.status == POLYTWKB_TOO_SMALL && report.needed == sizeof blob, "the length of a blob");
    report = polytwkb_measure(POLYTWKB_UNPACK, NULL, 0, limits, POLYTWKB_FULL);
    check(report.status == POLYTWKB_DONE && report.needed == 33, "the length of a table without rows");
}

// Packs the table with these options, and compares the blob if that is done.
static uint32_t packed_with(const polytwkb_options *options) {
    uint8_t *output = guarded(sizeof blob);
    polytwkb_report report =
        polytwkb_convert(POLYTWKB_PACK, (const uint8_t *)table, sizeof table - 1, output, sizeof blob, options);
    if (report.status == POLYTWKB_DONE)
        check(report.sent == sizeof blob && memcmp(output, blob, sizeof blob) == 0, "packed with options");
    release(output, sizeof blob, (size_t)report.sent);
    return report.status;
}

// Options that are left out are 0. Those of another size or with a field that is not known are refused.
static void options(void) {
    struct {
        polytwkb_options known;
        uint32_t more[2];
    } given = {{sizeof given.known, POLYTWKB_PLAIN, {0, 0, 0}, 0, 0, {0}}, {0, 0}};
    check(packed_with(&given.known) == POLYTWKB_DONE, "a style");
    given.known.size = 2 * sizeof(uint32_t);
    given.known.limits.nodes = UINT32_MAX;
    check(packed_with(&given.known) == POLYTWKB_DONE, "limits after the size");
    given.known.size = sizeof given.known;
    check(packed_with(&given.known) == POLYTWKB_ARGUMENTS, "limits out of range");
    given.known.limits = (polytwkb_limits){1, 0, 0};
    check(packed_with(&given.known) == POLYTWKB_ARGUMENTS, "limits without rows");
    given.known.limits = polytwkb_standard_limits();
    given.known.size = sizeof given;
    check(packed_with(&given.known) == POLYTWKB_DONE, "more fields, which are 0");
    given.more[1] = 1;
    check(packed_with(&given.known) == POLYTWKB_ARGUMENTS, "a field that is not known");
    given.known.size = sizeof given.known;
    given.known.reserved[0] = 1;
    check(packed_with(&given.known) == POLYTWKB_ARGUMENTS, "a reserved field");
    given.known.reserved[0] = 0;
    given.known.precision = POLYTWKB_DECIMALS(0);
    check(packed_with(&given.known) == POLYTWKB_ARGUMENTS, "the precision of a column");
    given.known.precision = 0;
    given.known.style = 2;
    check(packed_with(&given.known) == POLYTWKB_ARGUMENTS, "no style");
    given.known.style = POLYTWKB_PLAIN;
    for (uint32_t size = 0; size < 8; size++)
        if (size != 4) {
            given.known.size = size;
            check(packed_with(&given.known) == POLYTWKB_ARGUMENTS, "a size that is none");
        }
    check(polytwkb_convert(POLYTWKB_UNPACK, blob, sizeof blob, NULL, 0, NULL).needed == sizeof table - 1, "no options");
    check(polytwkb_convert(POLYTWKB_SHOW, blob, sizeof blob, NULL, 0, NULL).needed == sizeof lines - 1, "no options");
    check(polytwkb_convert(POLYTWKB_HEADERS + 1, blob, sizeof blob, NULL, 0, NULL).status == POLYTWKB_ARGUMENTS,
          "no conversion");
}

static const char csv[] = "id;line\n7;AAGG\n8;NA\n";

// Packs the column `line` of the CSV with these words and options, into each room from none to what is needed.
static polytwkb_report column_with(const char *words, size_t length, const polytwkb_options *options) {
    polytwkb_report report = {0};
    for (size_t room = 0; room < 40; room++) {
        uint8_t *output = guarded(room);
        report = polytwkb_convert_column(POLYTWKB_PACK, (const uint8_t *)csv, sizeof csv - 1, output, room, words,
                                         length, options);
        release(output, room, (size_t)report.sent);
        if (report.status != POLYTWKB_TOO_SMALL) break;
        check(report.sent == room && report.needed > room, "a column in too little room");
    }
    return report;
}

// A column of a CSV as linestrings, and as the lines of one multilinestring, and back. Words without a zero byte at
// their end, and options that are none of a column, are refused.
static void columns(void) {
    polytwkb_options given = {sizeof given, POLYTWKB_PLAIN, {0, 0, 0}, POLYTWKB_DECIMALS(0), ';', {0}};
    static const char words[] = "line\0\0NA", with_ids[] = "line\0id\0NA";
    polytwkb_report report = column_with(words, sizeof words, &given);
    check(report.status == POLYTWKB_DONE && report.done == 2 && report.sent == 9 && report.taken == 3, "a column");
    check(column_with(with_ids, sizeof with_ids, &given).done == 1, "a column with ids");
    report = column_with("line", sizeof "line", &given);
    check(report.reason == POLYTWKB_MISSING_VALUE && report.place == 3 && report.done == 0, "a missing value");
    report = column_with("lines", sizeof "lines", &given);
    check(report.reason == POLYTWKB_NO_SUCH_COLUMN && report.place == 1, "no such column");
    check(column_with("line", 4, &given).status == POLYTWKB_ARGUMENTS, "words that do not end");
    check(column_with(NULL, 0, &given).status == POLYTWKB_ARGUMENTS, "no words");
    check(column_with(words, sizeof words, NULL).status == POLYTWKB_ARGUMENTS, "no precision");
    given.precision = POLYTWKB_DECIMALS(8);
    check(column_with(words, sizeof words, &given).status == POLYTWKB_ARGUMENTS, "no such precision");
    given.precision = POLYTWKB_DECIMALS(-8);
    given.delimiter = '"';
    check(column_with(words, sizeof words, &given).status == POLYTWKB_ARGUMENTS, "a quote between fields");
    given.delimiter = 0;
    check(column_with(words, sizeof words, &given).reason == POLYTWKB_NO_SUCH_COLUMN, "a comma between fields");
    given.reserved[0] = 1;
    check(column_with(words, sizeof words, &given).status == POLYTWKB_ARGUMENTS, "a reserved field of a column");

    uint8_t text[16];
    report = polytwkb_convert_column(POLYTWKB_UNPACK, blob, sizeof blob, text, sizeof text, "a,b", 4, NULL);
    check(report.status == POLYTWKB_DONE && report.sent == 11 && memcmp(text, "\"a,b\"\nAAGG\n", 11) == 0, "unpacked");
    report = polytwkb_convert_column(POLYTWKB_UNPACK, (const uint8_t *)"\1\2\2\4\2", 5, NULL, 0, "a", 2, NULL);
    check(report.status == POLYTWKB_TOO_SMALL && report.needed == 2, "the length of what comes before a refusal");
    report = polytwkb_convert_column(POLYTWKB_SHOW, blob, sizeof blob, NULL, 0, "a", 2, NULL);
    check(report.status == POLYTWKB_ARGUMENTS, "a conversion without columns");
}

// Into each room from none to one more than is needed, the polyline of two points and the points of the polyline are written whole or not at all.
static void polylines(void) {
    static const polytwkb_point points[] = {{1, 1}, {5, 5}}, far[] = {{1, 1}, {0, INT64_C(1) << 62}};
    for (size_t room = 0; room <= 5; room++) {
        uint8_t *text = guarded(room);
        polytwkb_report report = polytwkb_encode(points, 2, text, room);
        int whole = room >= 4;
        check(report.status == (whole ? POLYTWKB_DONE : POLYTWKB_TOO_SMALL) && report.needed == 4, "encode");
        check(report.sent == (whole ? 4u : 0u) && memcmp(text, "AAGG", (size_t)report.sent) == 0, "the polyline");
        release(text, room, (size_t)report.sent);
    }
    for (size_t room = 0; room <= 3; room++) {
        uint8_t *back = guarded(room * sizeof *points);
        polytwkb_report report = polytwkb_decode((const uint8_t *)"AAGG", 4, (polytwkb_point *)(void *)back, room);
        int whole = room >= 2;
        check(report.status == (whole ? POLYTWKB_DONE : POLYTWKB_TOO_SMALL) && report.needed == 2, "decode");
        check(report.sent == (whole ? 2u : 0u) && memcmp(back, points, (size_t)report.sent * sizeof *points) == 0,
              "the points");
        release(back, room * sizeof *points, (size_t)report.sent * sizeof *points);
    }
    polytwkb_report outside = polytwkb_encode(far, 2, NULL, 0);
    check(outside.status == POLYTWKB_REFUSED && outside.reason == POLYTWKB_POLYLINE_RANGE && outside.place == 1,
          "a point out of range");
    polytwkb_report half = polytwkb_decode((const uint8_t *)"AAG", 3, NULL, 0);
    check(half.status == POLYTWKB_REFUSED && half.reason == POLYTWKB_POLYLINE_HALF && half.text_offset == 3,
          "half a point in a text");
    check(polytwkb_encode(NULL, 0, NULL, 0).status == POLYTWKB_DONE &&
              polytwkb_decode(NULL, 0, NULL, 0).status == POLYTWKB_DONE,
          "no points");
}

// Into each room from none to one more than is needed, all numbers are rounded, halves away from 0, or none is.
static void degrees(void) {
    static const double numbers[] = {7.44781, -0.000005, 0.015915}, endless[] = {1.5, -2.5, HUGE_VAL, 0.0};
    static const int64_t units[] = {744781, -1, 1592};
    for (size_t room = 0; room <= 4; room++) {
        uint8_t *made = guarded(room * sizeof *units);
        polytwkb_report report = polytwkb_round(numbers, 3, 5, (int64_t *)(void *)made, room);
        int whole = room >= 3;
        check(report.status == (whole ? POLYTWKB_DONE : POLYTWKB_TOO_SMALL) && report.needed == 3, "round");
        check(report.sent == (whole ? 3u : 0u) && memcmp(made, units, (size_t)report.sent * sizeof *units) == 0,
              "the units");
        release(made, room * sizeof *units, (size_t)report.sent * sizeof *units);
    }
    int64_t made[] = {7, 7, 7, 7};
    polytwkb_report refused = polytwkb_round(endless, 4, 0, made, 4);
    check(refused.status == POLYTWKB_REFUSED && refused.reason == POLYTWKB_POLYLINE_RANGE && refused.place == 2 &&
              refused.sent == 2,
          "an infinity");
    check(made[0] == 2 && made[1] == -3 && made[2] == 7 && made[3] == 7, "the units before it");
    check(polytwkb_round(numbers, 3, 8, made, 4).status == POLYTWKB_ARGUMENTS && made[0] == 2,
          "a precision out of range");
    check(polytwkb_round(numbers, 3, 256 + 5, made, 4).status == POLYTWKB_ARGUMENTS && made[0] == 2,
          "a precision of nine bits");
    check(polytwkb_round(NULL, 0, -8, NULL, 0).status == POLYTWKB_DONE, "no numbers");
}

int main(void) {
    each_room(POLYTWKB_PACK, table, sizeof table - 1, blob, sizeof blob);
    each_room(POLYTWKB_UNPACK, blob, sizeof blob, table, sizeof table - 1);
    each_room(POLYTWKB_SHOW, blob, sizeof blob, lines, sizeof lines - 1);
    each_room(POLYTWKB_GEOJSON, blob, sizeof blob, geojson, sizeof geojson - 1);
    each_room(POLYTWKB_HEADERS, blob, sizeof blob, header, sizeof header);
    headers();

    polylines();
    degrees();
    texts();
    versions();
    no_buffers();
    options();
    columns();

    polytwkb_report cut = polytwkb_unpack(blob, 6, NULL, 0, polytwkb_standard_limits());
    check(cut.status == POLYTWKB_TOO_SMALL && cut.needed == 33, "the header's line of a cut blob");
    cut = polytwkb_show(blob, 6, NULL, 0, polytwkb_standard_limits());
    check(cut.status == POLYTWKB_REFUSED && cut.reason == POLYTWKB_BLOB_TRUNCATED && cut.place == 6, "a cut blob");

    polytwkb_report half = polytwkb_pack((const uint8_t *)"depth,kind,id,precision,polyline\n0,point,,0,A\n", 46, NULL,
                                         0, polytwkb_standard_limits(), POLYTWKB_FULL);
    check(half.status == POLYTWKB_REFUSED && half.reason == POLYTWKB_POLYLINE_HALF && half.place == 2 &&
              half.text_offset == 1,
          "half a point");

    polytwkb_limits wrong = {33, 1, 0};
    check(polytwkb_show(blob, sizeof blob, NULL, 0, wrong).status == POLYTWKB_ARGUMENTS, "a limit out of range");
    check(polytwkb_measure(POLYTWKB_HEADERS + 1, blob, sizeof blob, polytwkb_standard_limits(), POLYTWKB_FULL).status ==
              POLYTWKB_ARGUMENTS,
          "no conversion");

    printf("%zu bytes of table, %zu of blob, each into any room\n", sizeof table - 1, sizeof blob);
    return 0;
}
