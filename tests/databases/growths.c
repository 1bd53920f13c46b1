/*
 * Runs statements of the extension of SQLite while each growth is refused in turn, of SQLite's memory and of the
 * library's:
 *
 *     growths EXTENSION
 *
 * A statement then ends with want of memory or gives its right answer, and right after it gives that answer. All memory
 * is given back: SQLite counts what it has out.
 */
#include <errno.h>
#include <stdbool.h>
#include <stdint.h>
#include <stdio.h>
#include <stdlib.h>
#include <string.h>

#include <sqlite3.h>

extern void *__libc_malloc(size_t);
extern void *__libc_realloc(void *, size_t);

static bool is_armed;      /* growths are counted */
static uint64_t growths;   /* so far */
static uint64_t refused;   /* the number of the one that is refused, 0 for none */
static bool is_from_there; /* and all after it */

static bool strikes(void) {
    if (!is_armed) return false;
    growths++;
    return refused && (growths == refused || (is_from_there && growths > refused));
}

void *malloc(size_t size) {
    if (strikes()) return errno = ENOMEM, NULL;
    return __libc_malloc(size);
}

void *realloc(void *memory, size_t size) {
    if (strikes()) return errno = ENOMEM, NULL;
    return __libc_realloc(memory, size);
}

#define LINE "(VALUES (0,'multipoint',NULL,5,NULL),(1,'point',7,NULL,'yop}Gysml@'),(1,'point',8,NULL,'cip}Guill@'))"
#define BLOB "x'07070f02000200020e010102020202021200'"

static const char *const statements[] = {
    "SELECT twkb_fault(" BLOB ")",
    "SELECT twkb_fault(CAST(" BLOB " || x'00' AS BLOB))",
    "SELECT twkb_fault(x'0100fe')",
    "SELECT group_concat(depth || kind || ifnull(id, '-') || ifnull(precision, '-') || ifnull(polyline, '-')) "
    "FROM twkb_rows(" BLOB ")",
    "SELECT group_concat(level || '.' || \"offset\" || kind || precision || metadata || length || points) "
    "FROM twkb_show(" BLOB ")",
    "SELECT twkb_geojson(" BLOB ")",
    "SELECT twkb_polyline(twkb_pack('linestring', 5, 'yop}Gysml@lAxTfChSgKhK'))",
    "SELECT hex(twkb_pack(column1, column2, column3, column4, column5)) FROM " LINE,
    "SELECT hex(twkb_pack(column1, column2, column3, column4, column5, 'plain')) FROM " LINE,
    "SELECT length(twkb_geojson(b)), length(twkb_polyline(b)), twkb_fault(b), length(b) FROM "
    "(SELECT twkb_pack('linestring', -2, replace(hex(zeroblob(1100)), '0', 'AC')) AS b)",
    "SELECT group_concat(hex(blob) || minx || maxx || miny || maxy) FROM twkb_box(" BLOB ")",
    "SELECT hex(twkb_wkb(" BLOB ", 'drop'))",
    "SELECT hex(twkb_from_wkb(twkb_wkb(" BLOB ", 'drop'), 3, 'plain'))",
    "SELECT length(twkb_wkb(b)), length(twkb_from_wkb(twkb_wkb(b), 2)), length(twkb_geojson(b)) FROM "
    "(SELECT twkb_pack('linestring', 2, replace(hex(zeroblob(1500)), '0', 'AC')) AS b)",
    "SELECT hex(twkb_pack(column1, column2, column3, column4, column5) OVER (ROWS UNBOUNDED PRECEDING)) FROM " LINE,
    "SELECT length(twkb_geojson(twkb_pack(min(i, 1), iif(i = 0, 'collection', 'linestring'), NULL, 5, '', 'plain'))) FROM "
    "(WITH RECURSIVE n(i) AS (VALUES (0) UNION ALL SELECT i + 1 FROM n WHERE i < 60) SELECT i FROM n)",
    "SELECT count(*), max(depth) FROM "
    "(SELECT twkb_pack(min(column1, 1), column2, NULL, iif(column1 = 0, 0, NULL), '') AS b FROM "
    "(WITH RECURSIVE n(i) AS (VALUES (0) UNION ALL SELECT i + 1 FROM n WHERE i < 60) "
    "SELECT i AS column1, iif(i = 0, 'multilinestring', 'linestring') AS column2 FROM n)), twkb_rows(b)",
};

/* What is refused, by the error of the statement. */
static const char *const refusals[] = {
    "SELECT * FROM twkb_rows(x'0100fe')",
    "SELECT * FROM twkb_show(x'010004020100')",
    "SELECT twkb_pack('linestring', 5, 'yop}Gysml@lA')",
    "SELECT twkb_pack(0, 'point', NULL, 0, 'AA') FROM (VALUES (1), (2))",
    "SELECT twkb_pack(0, 'point', NULL, 0, 'AA', 'neither')",
    "SELECT * FROM twkb_rows('text')",
    "SELECT twkb_wkb(" BLOB ")",
    "SELECT twkb_from_wkb(x'010700000001000000010400000001000000010100000000', 3)",
    "SELECT max(b) FROM "
    "(SELECT twkb_pack(column1, column2, column3, column4, column5) OVER (ROWS 0 PRECEDING) AS b FROM " LINE ")",
};

/* The first row of a statement as text, or its error; the status of SQLite. */
static int answer_of(sqlite3 *database, const char *words, char *text, size_t room) {
    sqlite3_stmt *statement = NULL;
    int code = sqlite3_prepare_v2(database, words, -1, &statement, NULL);
    size_t length = 0;
    text[0] = '\0';
    if (code == SQLITE_OK) code = sqlite3_step(statement);
    for (int column = 0; code == SQLITE_ROW && column < sqlite3_column_count(statement); column++) {
        const unsigned char *value = sqlite3_column_text(statement, column);
        if (!value && sqlite3_column_type(statement, column) != SQLITE_NULL) code = SQLITE_NOMEM;
        length += (size_t)snprintf(text + length, room - length, "%s;", value ? (const char *)value : "NULL");
        if (length >= room) length = room - 1;
    }
    if (sqlite3_errcode(database) == SQLITE_NOMEM) code = SQLITE_NOMEM;
    if (code != SQLITE_ROW && code != SQLITE_NOMEM && code != SQLITE_DONE) {
        snprintf(text, room, "error %s", sqlite3_errmsg(database));
    }
    sqlite3_finalize(statement);
    return code;
}

static char expected[1 << 16], answer[1 << 16];

/* Whether a statement answers right with this growth refused, or ends with want of memory. */
static bool is_right(sqlite3 *database, const char *words, uint64_t number, bool all) {
    growths = 0, refused = number, is_from_there = all;
    is_armed = true;
    int code = answer_of(database, words, answer, sizeof answer);
    is_armed = false;
    if (code == SQLITE_NOMEM || strcmp(answer, expected) == 0) return true;
    printf("FAIL  growth %llu%s of %s: %d %s\n", (unsigned long long)number, all ? " and all after it" : "", words,
           code, answer);
    return false;
}

/* Refuses each growth of a statement; the number of growths, 0 if an answer is wrong. */
static uint64_t each_refused(sqlite3 *database, const char *words) {
    uint64_t count = 0;
    for (int all = 0; all < 2; all++) {
        for (uint64_t number = 1;; number++) {
            sqlite3_db_release_memory(database);
            if (!is_right(database, words, number, all)) return 0;
            if (growths < number) break;
            count++;
            if (!is_right(database, words, 0, false)) return 0;
        }
    }
    return count + 1;
}

int main(int count, char **words) {
    sqlite3 *database;
    char *error = NULL;
    uint64_t growths_of_all = 0;
    /* no memory that SQLite keeps for itself, so that each growth is one of the C library */
    sqlite3_config(SQLITE_CONFIG_LOOKASIDE, 0, 0);
    sqlite3_config(SQLITE_CONFIG_PAGECACHE, NULL, 0, 0);
    if (count != 2 || sqlite3_open(":memory:", &database) != SQLITE_OK) return 2;
    sqlite3_enable_load_extension(database, 1);
    if (sqlite3_load_extension(database, words[1], NULL, &error) != SQLITE_OK) {
        fprintf(stderr, "growths: %s\n", error);
        return 2;
    }
    for (int pass = 0; pass < 2; pass++) {
        const char *const *list = pass ? refusals : statements;
        size_t length = pass ? sizeof refusals / sizeof *refusals : sizeof statements / sizeof *statements;
        for (size_t place = 0; place < length; place++) {
            int code = answer_of(database, list[place], expected, sizeof expected);
            if ((code == SQLITE_ROW) == (pass == 1)) return printf("FAIL  %s: %d %s\n", list[place], code, expected), 1;
            uint64_t found = each_refused(database, list[place]);
            if (found == 0) return 1;
            growths_of_all += found - 1;
        }
    }
    sqlite3_close(database);
    if (sqlite3_memory_used() != 0) return printf("FAIL  %lld bytes are left\n", (long long)sqlite3_memory_used()), 1;
    printf("%llu growths refused, each alone and with all after it\n", (unsigned long long)growths_of_all);
    return 0;
}
