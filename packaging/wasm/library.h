/*
 * The functions of the library, and what they take and return, as in include/polytwkb.h.
 *
 * They are declared as the library's module has them, which was made for the calls of x86-64: the report is written
 * where the first argument points, which is returned too, and limits are where an argument points, and are the
 * function's own. The linker refuses other types.
 */
typedef unsigned char byte;
typedef unsigned int u32;
typedef unsigned long u64; /* and a pointer */

struct limits {
    u32 nest, nodes, points;
};

struct options {
    u32 size, style;
    struct limits limits;
    u32 precision, delimiter;
};

struct row {
    long id;
    u64 points;
    u32 depth;
    unsigned short kind;
    byte has_id;
    signed char precision;
};

struct header {
    u64 offset, length, points;
    u32 level;
    byte kind;
    signed char precision;
    byte metadata, reserved;
};

struct report {
    u32 status, reason;
    u64 place, text_offset, done, sent, needed, taken, taken_points, reserved[2];
};

struct counts {
    u32 status, reason;
    u64 place, done, rows, points, needed_rows, needed_points, taken, reserved[2];
};

struct report *polytwkb_convert(struct report *, u32, const byte *, u64, byte *, u64, const u32 *, u64);
struct report *polytwkb_convert_column(struct report *, u32, const byte *, u64, byte *, u64, const byte *, u64,
                                       const u32 *, u64);
struct report *polytwkb_encode(struct report *, const byte *, u64, byte *, u64);
struct report *polytwkb_decode(struct report *, const byte *, u64, byte *, u64);
struct report *polytwkb_round(struct report *, const double *, u64, int, long *, u64);
struct report *polytwkb_write(struct report *, const byte *, u64, const byte *, u64, byte *, u64, byte *, u64,
                              struct limits *, u32, u32);
struct counts *polytwkb_read(struct counts *, const byte *, u64, byte *, u64, byte *, u64, byte *, u64, struct limits *,
                             u32);
u64 polytwkb_reason_text(u32, byte *, u64);
u64 polytwkb_version(byte *, u64);

/* Places of memory, in 32 bits, and as pointers. */
#define AT(address) ((byte *)(u64)(address))
#define NUMBER(pointer) ((u32)(u64)(pointer))
