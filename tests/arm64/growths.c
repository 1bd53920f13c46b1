// Refuses each growth of the library in turn, alone and with all that follow, and prints every report with a digest
// of the output, so that two machines can be compared. Reads a table; linked with --wrap=malloc and --wrap=realloc.
#include <polytwkb.h>
#include <stdio.h>
#include <stdlib.h>
#include <string.h>

enum { ROOM = 1 << 16 };

static uint8_t table[ROOM], blobs[ROOM], output[ROOM];

// The growths that are refused: from the first to the last, counted from 1.
static long growths, first_refused, last_refused;

void *__real_malloc(size_t size);
void *__real_realloc(void *block, size_t size);

static int is_refused(void) {
    growths++;
    return growths >= first_refused && growths <= last_refused;
}

void *__wrap_malloc(size_t size) { return is_refused() ? NULL : __real_malloc(size); }

void *__wrap_realloc(void *block, size_t size) { return is_refused() ? NULL : __real_realloc(block, size); }

// A call of the library, with its name and its input.
typedef struct library_call {
    const char *name;
    const uint8_t *input;
    size_t length;
} library_call;

static polytwkb_report run(size_t number, const library_call *call) {
    polytwkb_limits limits = polytwkb_standard_limits();
    memset(output, 0xA5, sizeof output);
    switch (number) {
    case 0: return polytwkb_pack(call->input, call->length, output, ROOM, limits, POLYTWKB_FULL);
    case 1: return polytwkb_pack(call->input, call->length, output, ROOM, limits, POLYTWKB_PLAIN);
    case 2: return polytwkb_unpack(call->input, call->length, output, ROOM, limits);
    case 3: return polytwkb_show(call->input, call->length, output, ROOM, limits);
    case 4: return polytwkb_measure(POLYTWKB_PACK, call->input, call->length, limits, POLYTWKB_FULL);
    default: return polytwkb_measure(POLYTWKB_UNPACK, call->input, call->length, limits, POLYTWKB_FULL);
    }
}

// FNV-1a of 64 bits.
static uint64_t digest(const uint8_t *bytes, size_t length) {
    uint64_t sum = 14695981039346656037u;
    for (size_t place = 0; place < length; place++) sum = (sum ^ bytes[place]) * 1099511628211u;
    return sum;
}

static void print(const library_call *call, long number, const char *others, polytwkb_report report) {
    printf(
        "%s, growth %ld%s: status %u, reason %u, place %llu, text_offset %llu, done %llu, sent %llu, needed %llu, output %016llx\n",
        call->name, number, others, report.status, report.reason, (unsigned long long)report.place,
        (unsigned long long)report.text_offset, (unsigned long long)report.done, (unsigned long long)report.sent,
        (unsigned long long)report.needed, (unsigned long long)digest(output, ROOM));
}

int main(void) {
    size_t length = fread(table, 1, ROOM, stdin);
    polytwkb_report packed = polytwkb_pack(table, length, blobs, ROOM, polytwkb_standard_limits(), POLYTWKB_FULL);
    if (packed.status != POLYTWKB_DONE) return 1;
    const library_call calls[] = {
        {"pack", table, length},      {"pack plain", table, length},   {"unpack", blobs, packed.sent},
        {"show", blobs, packed.sent}, {"measure pack", table, length}, {"measure unpack", blobs, packed.sent},
    };
    for (size_t number = 0; number < sizeof calls / sizeof *calls; number++) {
        for (int all = 0; all < 2; all++) {
            do {
                first_refused = first_refused + 1;
                last_refused = all ? 1L << 40 : first_refused;
                growths = 0;
                print(&calls[number], first_refused, all ? " and all after it" : "", run(number, &calls[number]));
            } while (growths >= first_refused);
            first_refused = last_refused = 0;
        }
    }
    return 0;
}
