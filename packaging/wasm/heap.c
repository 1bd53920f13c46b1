/*
 * The memory of the module: the buffers of the caller, and the heap of the library. Not proved; js/tests/heap.mjs
 * compares it with a model.
 *
 * Memory has, from address 0 up, the stack, which so traps when it is too deep, the data of the module, the buffers
 * of the caller, and the heap of the library, which is empty between two calls. This is compiled for pointers of 64
 * bits, as the module is.
 */
typedef unsigned char byte;
typedef unsigned int u32;
typedef unsigned long u64; /* and a pointer */

#define PAGE 65536ul
#define UNIT 16ul
/* The last page stays free, so that an address a little below 0 or above 2^32 is never one of memory. */
#define MOST (65535ul * PAGE)

extern byte __heap_base[];

/* Before each block of the heap; 16 bytes, as what malloc gives is aligned. */
struct block {
    u64 size;           /* of the block with this head */
    struct block *next; /* of the free blocks, in the order of addresses */
};

static struct block *free_blocks;
static u64 heap, top; /* blocks lie from heap to top */

static u64 rounded(u64 size) { return (size + UNIT - 1) & ~(UNIT - 1); }

/* Sees that memory reaches as far as an address; by more than is lacking, if the engine gives it. */
static _Bool reaches(u64 end) {
    u64 pages = __builtin_wasm_memory_size(0);
    if (end <= pages * PAGE) return 1;
    if (end > MOST) return 0;
    u64 lacking = (end - pages * PAGE + PAGE - 1) / PAGE, more = pages / 4;
    if (more > lacking && pages + more <= MOST / PAGE && __builtin_wasm_memory_grow(0, more) != ~0ul) return 1;
    return __builtin_wasm_memory_grow(0, lacking) != ~0ul;
}

static struct block *head_of(void *at) { return (struct block *)at - 1; }

/* A free block that is large enough, cut to this size if what is left can be a block. */
static void *reused(u64 size) {
    for (struct block **link = &free_blocks; *link; link = &(*link)->next) {
        struct block *found = *link;
        if (found->size < size) continue;
        *link = found->next;
        if (found->size - size >= 2 * sizeof(struct block)) {
            struct block *rest = (struct block *)((byte *)found + size);
            rest->size = found->size - size;
            rest->next = found->next;
            *link = rest;
            found->size = size;
        }
        return found + 1;
    }
    return 0;
}

static void *taken(u64 size) {
    void *found = reused(size);
    if (found || !reaches(top + size)) return found;
    struct block *last = (struct block *)top;
    last->size = size;
    top += size;
    return last + 1;
}

/* Joins the free block after a free block with it, if nothing lies between; whether it did. */
static _Bool joined(struct block *block) {
    struct block *next = block->next;
    if (!next || (byte *)block + block->size != (byte *)next) return 0;
    block->size += next->size;
    block->next = next->next;
    return 1;
}

static void given_back(struct block *block) {
    struct block **link = &free_blocks, *before = 0;
    while (*link && *link < block) before = *link, link = &before->next;
    block->next = *link;
    *link = block;
    joined(block);
    if (before && joined(before)) block = before;
    if (block->next || (u64)block + block->size != top) return;
    for (link = &free_blocks; *link != block;) link = &(*link)->next;
    *link = 0;
    top = (u64)block;
}

/* What the library calls, as the kit's own are by malloc, realloc and free. */
struct tried {
    u64 ok;
    void *at;
};

static struct tried tried(void *at) { return (struct tried){at != 0, at ? at : (void *)UNIT}; }

/* The size of a block for so many bytes, with its head; 0 if they are too many. */
static u64 block_size(u64 size, u64 least) {
    return size > MOST ? 0 : rounded(size ? size : least) + sizeof(struct block);
}

struct tried rattle_alloc(u64 size, u64 alignment) {
    u64 whole = block_size(size, alignment);
    return tried(whole ? taken(whole) : 0);
}

void rattle_dealloc(void *at) { given_back(head_of(at)); }

struct tried rattle_realloc(void *at, u64 old, u64 size, u64 alignment) {
    u64 whole = block_size(size, alignment);
    struct block *block = head_of(at);
    (void)old; /* its block says it */
    if (!whole) return tried(0);
    if ((u64)block + block->size == top && reaches((u64)block + whole)) {
        top = (u64)block + whole;
        block->size = whole;
        return tried(at);
    }
    if (whole <= block->size) return tried(at);
    void *to = taken(whole);
    if (!to) return tried(0);
    __builtin_memcpy(to, at, block->size - sizeof(struct block));
    given_back(block);
    return tried(to);
}

/* Where the caller may have so many bytes, with an empty heap after them: 0 if there is no memory. What lies there
   stays. */
u32 buffers(u32 size) {
    u64 start = rounded((u64)__heap_base);
    if (!reaches(start + size)) return 0;
    heap = top = rounded(start + size);
    free_blocks = 0;
    return (u32)start;
}

/* Bytes that the library has not given back: 0 between two calls. */
u32 kept(void) { return (u32)(top - heap); }
