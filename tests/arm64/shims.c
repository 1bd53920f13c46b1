// Checks the functions of C that programs for 64-bit ARM are linked with, one by one, against what
// packaging/arm64/README.md says that they guarantee. Started with the words "one" and "two"; prints what is wrong.
#include <errno.h>
#include <stdbool.h>
#include <stddef.h>
#include <stdint.h>
#include <stdio.h>
#include <string.h>

typedef struct {
    bool ok;
    void *block;
} tried;

tried rattle_alloc(size_t size, size_t alignment);
tried rattle_realloc(void *block, size_t kept, size_t size, size_t alignment);
void rattle_dealloc(void *block);
size_t rattle_arg_count(void);
ptrdiff_t rattle_arg(size_t place, char *buffer, size_t room);
int rattle_errno(void);
void rattle_set_errno(int number);

enum { BLOCKS = 64, ALIGNMENT = 16 };

static int wrong;

static void check(bool holds, const char *what) {
    if (holds) return;
    wrong = 1;
    printf("not so: %s\n", what);
}

// The size of a block, from 0 up; of the next number it is larger or smaller.
static size_t size_of(int number) { return (size_t)(number * number * 7 % 5000); }

static bool holds_only(const unsigned char *block, size_t size, int value) {
    for (size_t place = 0; place < size; place++) {
        if (block[place] != value) return false;
    }
    return true;
}

static void heap(void) {
    unsigned char *blocks[BLOCKS];
    for (int number = 0; number < BLOCKS; number++) {
        tried got = rattle_alloc(size_of(number), ALIGNMENT);
        check(got.ok && (uintptr_t)got.block % ALIGNMENT == 0, "a new block is aligned to 16");
        if (wrong) return;
        blocks[number] = memset(got.block, number, size_of(number));
    }
    for (int number = 0; number < BLOCKS; number++) {
        size_t old = size_of(number), size = size_of(number + 1), kept = old < size ? old : size;
        check(holds_only(blocks[number], old, number), "a block overlaps no other");
        tried got = rattle_realloc(blocks[number], kept, size, ALIGNMENT);
        check(got.ok && (uintptr_t)got.block % ALIGNMENT == 0, "a block that has grown is aligned to 16");
        if (wrong) return;
        check(holds_only(got.block, kept, number), "a block that has grown keeps its bytes");
        blocks[number] = memset(got.block, number, size);
        got = rattle_realloc(got.block, size, PTRDIFF_MAX, ALIGNMENT);
        check(!got.ok && got.block != NULL, "a growth that the C library refuses is refused");
        check(holds_only(blocks[number], size, number), "a refused growth leaves the block as it was");
    }
    tried got = rattle_alloc(PTRDIFF_MAX, ALIGNMENT);
    check(!got.ok && got.block != NULL, "a block that the C library refuses is refused");
    for (int number = 0; number < BLOCKS; number++) rattle_dealloc(blocks[number]);
}

static void words(void) {
    char buffer[] = "........";
    check(rattle_arg_count() == 3, "there are three words");
    check(rattle_arg(1, buffer, 3) == 3 && strcmp(buffer, "one.....") == 0, "a word is written into its exact room");
    check(rattle_arg(2, buffer, 2) == -2 && strcmp(buffer + 2, "e.....") == 0,
          "a word without room, nothing after the room");
    check(rattle_arg(3, buffer, sizeof buffer) == -1, "no fourth word");
}

static void error_numbers(void) {
    errno = 0;
    check(fopen("/nonexistent", "r") == NULL && rattle_errno() == ENOENT, "the error number of a call that failed");
    rattle_set_errno(EINTR);
    check(errno == EINTR && rattle_errno() == EINTR, "an error number that was set");
}

int main(void) {
    heap();
    words();
    error_numbers();
    return wrong;
}
