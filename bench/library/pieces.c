// A stream of single points and of lines, read by one call, or by windows of 64 kB with room for 1,000 rows. pieces once MB or
// pieces windows MB: counts what was read, the bytes that the caller holds and the most that the library allocated at once.
// pieces.sh compares the instructions.
#include <polytwkb.h>

#include <stdio.h>
#include <stdlib.h>
#include <string.h>

enum { WINDOW = 1 << 16, ROWS = 1000, POINTS = 1 << 14, LINE = 50, SINGLES = 50 };

static size_t held_now, held_most;

void *__real_malloc(size_t size);
void *__real_realloc(void *memory, size_t size);
void __real_free(void *memory);

// Memory of the library, which asks for it by malloc, realloc and free: each block has its size before it.
enum { BEFORE = 16 };

static void *sized(char *block, size_t size) {
    if (block == NULL) return NULL;
    memcpy(block, &size, sizeof size);
    held_now += size;
    if (held_now > held_most) held_most = held_now;
    return block + BEFORE;
}

static void *unsized(void *memory) {
    size_t size;
    memcpy(&size, (char *)memory - BEFORE, sizeof size);
    held_now -= size;
    return (char *)memory - BEFORE;
}

void *__wrap_malloc(size_t size) { return sized(__real_malloc(size + BEFORE), size); }

void *__wrap_realloc(void *memory, size_t size) {
    if (memory == NULL) return __wrap_malloc(size);
    return sized(__real_realloc(unsized(memory), size + BEFORE), size);
}

void __wrap_free(void *memory) {
    if (memory != NULL) __real_free(unsized(memory));
}

typedef struct {
    uint64_t rows, points, sum, held;
} totals;

static void fail(const char *text) {
    fprintf(stderr, "pieces: %s\n", text);
    exit(1);
}

static void *room_for(size_t count, size_t size) {
    void *memory = __real_malloc(count * size);
    if (memory == NULL) fail("out of memory");
    return memory;
}

// Some geometries, written as blobs: points, and one line.
static size_t some_blobs(uint8_t *output, size_t room) {
    static polytwkb_row rows[SINGLES + 1];
    static polytwkb_point points[SINGLES + LINE];
    for (int row = 0; row <= SINGLES; row++) {
        rows[row].points = row < SINGLES ? 1 : LINE;
        rows[row].kind = row < SINGLES ? POLYTWKB_KIND_POINT : POLYTWKB_KIND_LINESTRING;
        rows[row].precision = 5;
    }
    for (int point = 0; point < SINGLES + LINE; point++) {
        points[point].x = 7 * point * point % 2001 - 1000;
        points[point].y = 13 * point * point % 2001 - 1000;
    }
    polytwkb_report report = polytwkb_write_any(rows, SINGLES + 1, points, SINGLES + LINE, output, room, NULL, 0,
                                                polytwkb_standard_limits(), POLYTWKB_FULL, 0);
    if (report.status != POLYTWKB_DONE) fail("not written");
    return report.sent;
}

static void add(totals *all, const polytwkb_counts *counts, const polytwkb_point *points) {
    all->rows += counts->rows;
    all->points += counts->points;
    if (counts->points != 0) all->sum += (uint64_t)(points[0].x + points[counts->points - 1].y);
}

// The functions that callgrind counts.
__attribute__((noinline)) polytwkb_counts once(const uint8_t *blobs, size_t length, polytwkb_row *rows,
                                               polytwkb_point *points) {
    return polytwkb_read_any(blobs, length, rows, length, points, length / 2, NULL, 0, polytwkb_standard_limits(), 0);
}

// The next window, and all calls that read it.
__attribute__((noinline)) void windows(const uint8_t *blobs, size_t length, uint8_t *window, polytwkb_row *rows,
                                       polytwkb_point *points, totals *all) {
    size_t held = 0, place = 0;
    for (;;) {
        size_t more = WINDOW - held < length - place ? WINDOW - held : length - place;
        memcpy(window + held, blobs + place, more);
        held += more, place += more;
        polytwkb_counts counts;
        size_t taken = 0;
        do {
            counts = polytwkb_read_any(window + taken, held - taken, rows, ROWS, points, POINTS, NULL, 0,
                                       polytwkb_standard_limits(), POLYTWKB_STOP_IF_FULL);
            add(all, &counts, points);
            taken += counts.taken;
        } while (counts.status == POLYTWKB_TOO_SMALL && counts.taken != 0);
        memmove(window, window + taken, held -= taken);
        if (counts.status == POLYTWKB_DONE && more == 0) return;
        if (counts.status != POLYTWKB_DONE && (counts.reason != POLYTWKB_BLOB_TRUNCATED || more == 0)) fail("refused");
    }
}

static totals read_once(const uint8_t *blobs, size_t length) {
    polytwkb_row *rows = room_for(length, sizeof *rows);
    polytwkb_point *points = room_for(length / 2, sizeof *points);
    totals all = {0, 0, 0, 0};
    polytwkb_counts counts = once(blobs, length, rows, points);
    if (counts.status != POLYTWKB_DONE || counts.taken != length) fail("refused");
    add(&all, &counts, points);
    all.held = counts.rows * sizeof *rows + counts.points * sizeof *points + length;
    __real_free(rows), __real_free(points);
    return all;
}

static totals read_windows(const uint8_t *blobs, size_t length) {
    uint8_t *window = room_for(WINDOW, 1);
    polytwkb_row *rows = room_for(ROWS, sizeof *rows);
    polytwkb_point *points = room_for(POINTS, sizeof *points);
    totals all = {0, 0, 0, WINDOW + ROWS * sizeof *rows + POINTS * sizeof *points};
    windows(blobs, length, window, rows, points, &all);
    __real_free(rows), __real_free(points), __real_free(window);
    return all;
}

int main(int count, char **words) {
    size_t most = count == 3 ? (size_t)atoi(words[2]) << 20 : 0;
    if (most == 0) fail("pieces once|windows MB");
    uint8_t *blobs = room_for(most, 1);
    size_t block = some_blobs(blobs, most), length = most / block * block;
    for (size_t place = block; place < length; place += block) memcpy(blobs + place, blobs, block);
    held_most = held_now;
    totals all = strcmp(words[1], "once") == 0 ? read_once(blobs, length) : read_windows(blobs, length);
    printf("%s: %zu bytes, %llu rows, %llu points, the caller holds %llu bytes, the library at most %zu\n", words[1],
           length, (unsigned long long)all.rows, (unsigned long long)all.points, (unsigned long long)all.held,
           held_most);
    __real_free(blobs);
    return 0;
}
