// Times of calls of the library: one point of 5 bytes, and a table of lines of about 1 MB and its stream.
#include <polytwkb.h>

#include <stdio.h>
#include <stdlib.h>
#include <string.h>
#include <time.h>

enum { CALLS = 200000, LINES = 2000, POINTS = 250, ROOM = 1 << 22, ROUNDS = 20 };

static double now(void) {
    struct timespec time;
    clock_gettime(CLOCK_PROCESS_CPUTIME_ID, &time);
    return (double)time.tv_sec + 1e-9 * (double)time.tv_nsec;
}

// Ends the run where a call was not carried through.
static size_t sent(polytwkb_report report) {
    if (report.status != POLYTWKB_DONE) exit(1);
    return (size_t)report.sent;
}

// A table of lines whose points stand two units apart.
static size_t make_table(char *table) {
    size_t length = (size_t)sprintf(table, "depth,kind,id,precision,polyline\n");
    for (int line = 0; line < LINES; line++) {
        length += (size_t)sprintf(table + length, "0,linestring,,5,");
        for (int point = 0; point < POINTS; point++) length += (size_t)sprintf(table + length, "CC");
        table[length++] = '\n';
    }
    return length;
}

int main(void) {
    static const uint8_t point[] = {0x01, 0x00, 0x80, 0x01, 0x04};
    static uint8_t small[128];
    polytwkb_limits limits = polytwkb_standard_limits();
    double best = 1e9;
    for (int round = 0; round < ROUNDS; round++) {
        double start = now();
        for (int call = 0; call < CALLS; call++)
            sent(polytwkb_unpack(point, sizeof point, small, sizeof small, limits));
        double took = (now() - start) / CALLS;
        if (took < best) best = took;
    }
    printf("one point: %.0f ns\n", best * 1e9);

    char *table = malloc(ROOM);
    uint8_t *stream = malloc(ROOM), *back = malloc(ROOM);
    if (table == NULL || stream == NULL || back == NULL) return 1;
    size_t length = make_table(table), packed = 0, unpacked = 0;
    double pack = 1e9, measure = 1e9, unpack = 1e9;
    for (int round = 0; round < ROUNDS; round++) {
        double start = now();
        packed = sent(polytwkb_pack((uint8_t *)table, length, stream, ROOM, limits, POLYTWKB_FULL));
        double packed_at = now();
        unpacked = sent(polytwkb_unpack(stream, packed, back, ROOM, limits));
        double unpacked_at = now();
        if (polytwkb_measure(POLYTWKB_PACK, (uint8_t *)table, length, limits, POLYTWKB_FULL).needed != packed) return 1;
        double measured_at = now();
        if (packed_at - start < pack) pack = packed_at - start;
        if (unpacked_at - packed_at < unpack) unpack = unpacked_at - packed_at;
        if (measured_at - unpacked_at < measure) measure = measured_at - unpacked_at;
    }
    if (unpacked != length || memcmp(back, table, length) != 0) return 1;
    printf("%zu bytes of table: pack %.0f MB/s, measure %.0f MB/s, unpack %.0f MB/s\n", length,
           1e-6 * (double)length / pack, 1e-6 * (double)length / measure, 1e-6 * (double)length / unpack);
    free(table), free(stream), free(back);
    return 0;
}
