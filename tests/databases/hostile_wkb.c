/*
 * WKB of strangers under the address sanitizer: shapes of all kinds in both byte orders, cut at every byte, with every
 * bit turned, with huge counts in place of every four bytes, and with random bytes.
 *
 *     hostile_wkb [COUNT [SEED]]
 *
 * Each input is in memory of its own length. It is taken or refused at a byte that it has or ends with; what is taken
 * comes out again as WKB of the length that was told, and that WKB is taken too.
 */
#include <stdint.h>
#include <stdio.h>
#include <stdlib.h>

#include "wkb.h"

static void *twkb_take(size_t size) { return malloc(size); }
static void *twkb_grown(void *memory, size_t size) { return realloc(memory, size); }
static void twkb_give_back(void *memory) { free(memory); }
static bool twkb_pause(void *database) { return database != NULL; }

static uint64_t taken, refused;

static void fail(const char *words) {
    fprintf(stderr, "hostile_wkb: %s\n", words);
    exit(1);
}

/* Reads bytes as WKB: their blob, whose length is 0 if they are refused. */
static twkb_output read_wkb(const uint8_t *bytes, size_t length) {
    twkb_fault_text fault = {""};
    uint8_t *own = malloc(length ? length : 1);
    twkb_wkb it = {.bytes = own, .length = length, .precision = 5, .fault = &fault};
    twkb_output blob = {0};
    memcpy(own, bytes, length);
    twkb_end end = twkb_read_wkb(&it);
    if (end == TWKB_DONE && twkb_finish(&it.packing, true, &blob, &fault) != TWKB_DONE) fail("rows are refused");
    if (end == TWKB_REFUSED && strtoull(fault.text + strlen("byte "), NULL, 10) > length) fail(fault.text);
    if (end != TWKB_DONE && end != TWKB_REFUSED) fail("no memory, or cancelled");
    free(own), free(it.packing.rows), free(it.packing.points);
    return blob;
}

/* The WKB of a blob, in memory of its own length. */
static uint8_t *written(const twkb_output *blob, uint64_t *length) {
    twkb_small small;
    twkb_arrays found;
    twkb_fault_text fault;
    if (twkb_read(blob->memory, blob->length, &small, &found, &fault) != TWKB_DONE) fail("the blob is refused");
    *length = twkb_wkb_lengths(&found);
    uint8_t *wkb = malloc(*length);
    if (twkb_without_ids(&found, &fault) != TWKB_DONE) fail("ids");
    if (twkb_put_wkb(wkb, &found, NULL) != TWKB_DONE) fail("no WKB");
    twkb_free_arrays(&found);
    return wkb;
}

static void try_bytes(const uint8_t *bytes, size_t length) {
    twkb_output blob = read_wkb(bytes, length);
    refused += blob.length == 0, taken += blob.length > 0;
    if (blob.length > 0) {
        uint64_t wkb_length;
        uint8_t *wkb = written(&blob, &wkb_length);
        twkb_output again = read_wkb(wkb, wkb_length);
        if (again.length != blob.length || memcmp(again.memory, blob.memory, blob.length) != 0) fail("another blob");
        free(again.memory), free(wkb);
    }
    free(blob.memory);
}

/* ---- shapes */

static uint8_t shape[4096];
static size_t shape_length;

static void put(uint64_t number, int bytes, bool is_big) {
    for (int byte = 0; byte < bytes; byte++) {
        shape[shape_length++] = (uint8_t)(number >> (8 * (is_big ? bytes - 1 - byte : byte)));
    }
}

static void put_points(uint32_t count, bool is_big) {
    for (uint32_t place = 0; place < 2 * count; place++) {
        double number = 1.25 * place;
        uint64_t bits;
        memcpy(&bits, &number, sizeof bits);
        put(bits, 8, is_big);
    }
}

/* Puts a shape of a kind, with two of each part; a collection has one of each kind, and is nested once. */
static void put_shape(uint32_t kind, bool is_big, int nested) {
    put(!is_big, 1, is_big), put(kind | (nested & 1 ? TWKB_HAS_SRID : 0), 4, is_big);
    if (nested & 1) put(4326, 4, is_big);
    if (kind == POLYTWKB_KIND_POINT) {
        put_points(1, is_big);
    } else if (kind == POLYTWKB_KIND_LINESTRING) {
        put(2, 4, is_big), put_points(2, is_big);
    } else if (kind == POLYTWKB_KIND_POLYGON) {
        put(1, 4, is_big), put(4, 4, is_big), put_points(4, is_big);
    } else if (kind < POLYTWKB_KIND_COLLECTION) {
        put(2, 4, is_big);
        for (int part = 0; part < 2; part++) put_shape(kind - 3, part, nested);
    } else {
        put(nested < 2 ? 7 : 0, 4, is_big);
        for (uint32_t part = 1; part <= 7 && nested < 2; part++) put_shape(part, part & 1, nested + 1);
    }
}

/* ---- what is done to them */

static void cut_and_turned(void) {
    for (size_t length = 0; length <= shape_length; length++) try_bytes(shape, length);
    for (size_t bit = 0; bit < 8 * shape_length; bit++) {
        shape[bit / 8] ^= (uint8_t)(1 << bit % 8);
        try_bytes(shape, shape_length);
        shape[bit / 8] ^= (uint8_t)(1 << bit % 8);
    }
}

static void with_counts(void) {
    static const uint32_t counts[] = {0, 1, 0xffffffff, 0x7fffffff, 0x01000000, 0x01000001, 0x00100000, 0xffff, 3};
    uint8_t kept[4];
    for (size_t at = 0; at + 4 <= shape_length; at++) {
        memcpy(kept, shape + at, 4);
        for (size_t place = 0; place < 2 * (sizeof counts / sizeof *counts); place++) {
            for (size_t byte = 0; byte < 4; byte++) {
                shape[at + byte] = (uint8_t)(counts[place / 2] >> (8 * (place % 2 ? 3 - byte : byte)));
            }
            try_bytes(shape, shape_length);
        }
        memcpy(shape + at, kept, 4);
    }
}

static uint64_t chance;

static uint64_t random_number(void) {
    chance ^= chance << 13, chance ^= chance >> 7, chance ^= chance << 17;
    return chance;
}

static void with_random_bytes(void) {
    uint8_t kept[sizeof shape];
    memcpy(kept, shape, shape_length);
    for (uint64_t slips = 1 + random_number() % 4; slips > 0; slips--) {
        shape[random_number() % shape_length] = (uint8_t)(random_number() % 5 ? random_number() % 9 : random_number());
    }
    try_bytes(shape, 1 + random_number() % shape_length);
    try_bytes(shape, shape_length);
    memcpy(shape, kept, shape_length);
}

int main(int count, char **words) {
    uint64_t inputs = count > 1 ? strtoull(words[1], NULL, 10) : 100000;
    chance = UINT64_C(0x9e3779b97f4a7c15) ^ (count > 2 ? strtoull(words[2], NULL, 10) : 0);
    for (uint32_t kind = 1; kind <= 7; kind++) {
        for (int is_big = 0; is_big < 2; is_big++) {
            shape_length = 0, put_shape(kind, is_big, 0);
            uint64_t before = taken;
            try_bytes(shape, shape_length);
            if (taken == before) fail("a shape is refused");
            cut_and_turned();
            with_counts();
            for (uint64_t number = 0; number < inputs / 28; number++) with_random_bytes();
        }
    }
    printf("%llu inputs, %llu taken\n", (unsigned long long)(taken + refused), (unsigned long long)taken);
    return 0;
}
