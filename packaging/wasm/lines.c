/*
 * The lines of `show`, of headers as the library writes them, and of blobs that begin at another offset. Not proved;
 * js/tests compares them with those of the command.
 */
#include "library.h"

#define UNIT 1000000000 /* 9 digits, which are written by numbers of 32 bits */

static const char kinds[][16] = {
    "", "point", "linestring", "polygon", "multipoint", "multilinestring", "multipolygon", "collection",
};

/* Writes the last digits of a number, so many, and answers where they end. */
static byte *put_digits(u32 number, u32 count, byte *to) {
    for (byte *at = to + count; at > to; number /= 10) *--at = '0' + number % 10;
    return to + count;
}

static byte *put_small(u32 number, byte *to) {
    u32 count = 1;
    for (u32 rest = number; rest >= 10; rest /= 10) count++;
    return put_digits(number, count, to);
}

/* Writes a number below 2^32 * 10^9, and a space. */
static byte *put_number(u64 number, byte *to) {
    u64 units = number / UNIT;
    to = units ? put_digits(number % UNIT, 9, put_small(units, to)) : put_small(number, to);
    *to++ = ' ';
    return to;
}

/* Writes a word, and a space. */
static byte *put_word(const char *word, byte *to) {
    while (*word) *to++ = *word++;
    *to++ = ' ';
    return to;
}

/* Writes the line of a header of a blob that begins at an offset. */
static byte *put_line(const struct header *header, u64 offset, byte *to) {
    static const char digits[] = "0123456789ABCDEF";
    to = put_number(header->level, to);
    to = put_number(offset + header->offset, to);
    to = put_word(kinds[header->kind], to);
    if (header->precision < 0) *to++ = '-';
    to = put_number(header->precision < 0 ? -header->precision : header->precision, to);
    *to++ = digits[header->metadata / 16];
    *to++ = digits[header->metadata % 16];
    *to++ = ' ';
    to = put_number(header->length, to);
    to = put_number(header->points, to);
    to[-1] = '\n';
    return to;
}

/* Writes the lines of so many headers, of blobs that begin at high * 2^32 + low; answers their length. */
u32 put_lines(u32 headers, u32 count, u32 output, u32 high, u32 low) {
    const struct header *header = (const struct header *)AT(headers);
    byte *to = AT(output);
    for (const struct header *end = header + count; header < end; header++) {
        to = put_line(header, ((u64)high << 32) + low, to);
    }
    return NUMBER(to) - output;
}
