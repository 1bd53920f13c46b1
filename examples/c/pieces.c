// Reads a stream of blobs from standard input, which may have no end, by windows of its bytes, and prints how many
// geometries, rows and points it has, or why and where it is refused. The memory is that of a window and of the arrays for
// what is in it: both grow only for a geometry that they are too small for.
#include <polytwkb.h>

#include <stdio.h>
#include <stdlib.h>
#include <string.h>

// The sizes to begin with: bytes of a window, rows and points.
enum { WINDOW = 4096, ROWS = 64, POINTS = 256 };

// What is held of the stream: the bytes from the first blob that was not taken on.
typedef struct window {
    uint8_t *bytes;
    size_t held, room;
} window;

typedef struct arrays {
    polytwkb_row *rows;
    polytwkb_point *points;
    size_t row_room, point_room;
} arrays;

static void *grown(void *memory, size_t count, size_t size) {
    memory = count > SIZE_MAX / size ? NULL : realloc(memory, count * size);
    if (memory == NULL) {
        fprintf(stderr, "no memory\n");
        exit(4);
    }
    return memory;
}

static void grow_arrays(arrays *to, size_t row_room, size_t point_room) {
    if (row_room > to->row_room) to->rows = grown(to->rows, to->row_room = row_room, sizeof *to->rows);
    if (point_room > to->point_room) to->points = grown(to->points, to->point_room = point_room, sizeof *to->points);
}

// Fills the window from a file, and makes it larger first if it is full; returns whether a byte came.
static int fill(window *from, FILE *file) {
    if (from->held == from->room) from->bytes = grown(from->bytes, from->room *= 2, 1);
    size_t got = fread(from->bytes + from->held, 1, from->room - from->held, file);
    from->held += got;
    return got > 0;
}

// Reads the geometries that are whole in the window, as many as there is room for, and keeps the bytes after them.
static polytwkb_counts read_window(window *from, arrays *to) {
    polytwkb_counts counts = polytwkb_read(from->bytes, from->held, to->rows, to->row_room, to->points, to->point_room,
                                           NULL, 0, polytwkb_standard_limits(), POLYTWKB_STOP_IF_FULL);
    from->held -= counts.taken;
    memmove(from->bytes, from->bytes + counts.taken, from->held);
    if (counts.status == POLYTWKB_TOO_SMALL && counts.taken == 0)
        grow_arrays(to, counts.needed_rows, counts.needed_points);
    return counts;
}

// Whether the geometries end, which is the last thing to know of a stream: refused, or without memory.
static int has_ended(const polytwkb_counts *counts, int came) {
    if (counts->status == POLYTWKB_TOO_SMALL) return 0;
    if (counts->status == POLYTWKB_DONE || counts->reason == POLYTWKB_BLOB_TRUNCATED) return !came;
    return 1;
}

int main(void) {
    window from = {grown(NULL, WINDOW, 1), 0, WINDOW};
    arrays to = {NULL, NULL, 0, 0};
    grow_arrays(&to, ROWS, POINTS);
    uint64_t geometries = 0, rows = 0, points = 0, offset = 0;
    polytwkb_counts counts = {0};
    int came = 1;
    do {
        if (counts.status != POLYTWKB_TOO_SMALL) came = fill(&from, stdin);
        counts = read_window(&from, &to);
        geometries += counts.done, rows += counts.rows, points += counts.points;
        if (!has_ended(&counts, came)) offset += counts.taken;
    } while (!has_ended(&counts, came));
    free(from.bytes), free(to.rows), free(to.points);

    printf("%llu geometries, %llu rows, %llu points\n", (unsigned long long)geometries, (unsigned long long)rows,
           (unsigned long long)points);
    fflush(stdout);
    if (counts.status == POLYTWKB_REFUSED) {
        char why[POLYTWKB_TEXT_ROOM];
        polytwkb_reason_text(counts.reason, why, sizeof why);
        fprintf(stderr, "byte %llu: %s\n", (unsigned long long)(offset + counts.place), why);
    }
    return (int)counts.status;
}
