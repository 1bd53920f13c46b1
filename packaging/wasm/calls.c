/*
 * The calls of JavaScript, with numbers of 32 bits. Not proved; js/tests compares them with the native library.
 */
#include "library.h"

static struct report report;
static struct counts counts;
static byte text[32];

/* Each of these answers where the report is. */
u32 convert(u32 conversion, u32 input, u32 length, u32 output, u32 room, u32 nest, u32 nodes, u32 points, u32 style) {
    struct options options = {sizeof options, style, {nest, nodes, points}, 0, 0};
    return NUMBER(polytwkb_convert(&report, conversion, AT(input), length, AT(output), room, &options.size,
                                   sizeof options / sizeof options.size));
}

u32 convert_column(u32 conversion, u32 input, u32 length, u32 output, u32 room, u32 words, u32 words_length, u32 nest,
                   u32 nodes, u32 points, u32 style, u32 precision, u32 delimiter) {
    struct options options = {sizeof options, style, {nest, nodes, points}, precision, delimiter};
    return NUMBER(polytwkb_convert_column(&report, conversion, AT(input), length, AT(output), room, AT(words),
                                          words_length, &options.size, sizeof options / sizeof options.size));
}

u32 encode(u32 points, u32 count, u32 output, u32 room) {
    return NUMBER(polytwkb_encode(&report, AT(points), count, AT(output), room));
}

u32 decode(u32 input, u32 length, u32 points, u32 room) {
    return NUMBER(polytwkb_decode(&report, AT(input), length, AT(points), room));
}

/* Ends are numbers of 64 bits; of a room of 0 there are none. With the flag 1 the call ends after the first geometry without room. */
u32 write(u32 rows, u32 row_count, u32 points, u32 point_count, u32 output, u32 room, u32 ends, u32 end_room, u32 nest,
          u32 nodes, u32 most, u32 style, u32 flags) {
    struct limits limits = {nest, nodes, most};
    const byte *from_rows = AT(rows), *from_points = AT(points);
    return NUMBER(polytwkb_write(&report, from_rows, row_count, from_points, point_count, AT(output), room, AT(ends),
                                 end_room, &limits, style, flags));
}

/* This answers where the counts are. Its ends and flags are as those of `write`. */
u32 read(u32 input, u32 length, u32 rows, u32 row_room, u32 points, u32 point_room, u32 ends, u32 end_room, u32 nest,
         u32 nodes, u32 most, u32 flags) {
    struct limits limits = {nest, nodes, most};
    return NUMBER(polytwkb_read(&counts, AT(input), length, AT(rows), row_room, AT(points), point_room, AT(ends),
                                end_room, &limits, flags));
}

/* Each of these answers where a text is, which ends at a NUL. */
u32 reason_text(u32 reason) {
    polytwkb_reason_text(reason, text, sizeof text);
    return NUMBER(text);
}

u32 version(void) {
    polytwkb_version(text, sizeof text);
    return NUMBER(text);
}
