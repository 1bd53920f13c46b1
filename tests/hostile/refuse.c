/* Loaded into a program (LD_PRELOAD): counts its growths, reads and writes, and lets one of them fail.

   Counted are the calls of malloc, realloc, read and write that the program itself makes, not those of the C library.
   REFUSE names them: words KIND=N, where N counts from 1 and KIND is growth, read or write (the call fails), zero (a
   write takes nothing), short_read or short_write (the call moves one byte). KIND=N+ is that call and all behind it.
   Writes to standard error are kinds of their own, errors and short_errors. The word piece=N lets each read give N bytes
   at most.
   REFUSE_COUNTS is a file of eight bytes a kind, to which the numbers of calls are added. */
#define _GNU_SOURCE
#include <errno.h>
#include <fcntl.h>
#include <link.h>
#include <stdint.h>
#include <stdlib.h>
#include <string.h>
#include <sys/mman.h>
#include <sys/syscall.h>
#include <unistd.h>

extern void *__libc_malloc(size_t);
extern void *__libc_realloc(void *, size_t);

enum { GROWTH, READ, WRITE, ERRORS, ZERO, SHORT_READ, SHORT_WRITE, SHORT_ERRORS, KINDS };
static const char *const names[KINDS] = {
    "growth=", "read=", "write=", "errors=", "zero=", "short_read=", "short_write=", "short_errors="};
static uint64_t least[KINDS], most[KINDS]; /* the calls that fail: none where both are 0 */
static uint64_t own_counts[KINDS];
static uint64_t *counts = own_counts;
static size_t piece = SIZE_MAX;
static uintptr_t first, last; /* where the program's own code lies */

static int find_program(struct dl_phdr_info *info, size_t size, void *unused) {
    (void)size, (void)unused;
    for (int place = 0; place < info->dlpi_phnum; place++) {
        const ElfW(Phdr) *part = &info->dlpi_phdr[place];
        if (part->p_type == PT_LOAD && (part->p_flags & PF_X)) {
            first = info->dlpi_addr + part->p_vaddr;
            last = first + part->p_memsz;
        }
    }
    return 1; /* the program is listed first */
}

__attribute__((constructor)) static void begin(void) {
    const char *words = getenv("REFUSE"), *file = getenv("REFUSE_COUNTS");
    for (int kind = 0; words && kind < KINDS; kind++) {
        for (const char *word = strstr(words, names[kind]); word; word = strstr(word + 1, names[kind])) {
            if (word != words && word[-1] != ' ') continue; /* the end of another kind's name */
            char *end;
            least[kind] = strtoull(word + strlen(names[kind]), &end, 10);
            most[kind] = *end == '+' ? UINT64_MAX : least[kind];
        }
    }
    const char *word = words ? strstr(words, "piece=") : NULL;
    if (word) piece = strtoull(word + strlen("piece="), NULL, 10);
    int place = file ? open(file, O_RDWR) : -1;
    if (place >= 0) {
        void *shared = mmap(NULL, sizeof own_counts, PROT_READ | PROT_WRITE, MAP_SHARED, place, 0);
        if (shared != MAP_FAILED) counts = shared;
        close(place);
    }
    dl_iterate_phdr(find_program, NULL);
}

static int is_own(void *caller) { return (uintptr_t)caller >= first && (uintptr_t)caller < last; }

/* Whether this call of the kind is one that fails; it is counted. */
static int strikes(int kind) {
    uint64_t number = ++counts[kind];
    return least[kind] <= number && number <= most[kind];
}

void *malloc(size_t size) {
    if (is_own(__builtin_return_address(0)) && strikes(GROWTH)) return errno = ENOMEM, NULL;
    return __libc_malloc(size);
}

void *realloc(void *old, size_t size) {
    if (is_own(__builtin_return_address(0)) && strikes(GROWTH)) return errno = ENOMEM, NULL;
    return __libc_realloc(old, size);
}

ssize_t read(int file, void *into, size_t size) {
    if (is_own(__builtin_return_address(0))) {
        if (strikes(READ)) return errno = EIO, -1;
        if (strikes(SHORT_READ) && size > 1) size = 1;
        if (size > piece) size = piece;
    }
    return syscall(SYS_read, file, into, size);
}

static ssize_t write_by(void *caller, int file, const void *from, size_t size) {
    if (is_own(caller) && file == 2) {
        if (strikes(ERRORS)) return errno = EIO, -1;
        if (strikes(SHORT_ERRORS) && size > 1) size = 1;
    } else if (is_own(caller)) {
        if (strikes(WRITE)) return errno = EIO, -1;
        if (strikes(ZERO)) return 0;
        if (strikes(SHORT_WRITE) && size > 1) size = 1;
    }
    return syscall(SYS_write, file, from, size);
}

ssize_t write(int file, const void *from, size_t size) {
    return write_by(__builtin_return_address(0), file, from, size);
}

ssize_t __write(int file, const void *from, size_t size) {
    return write_by(__builtin_return_address(0), file, from, size);
}
