/*
 * TWKB in SQLite: functions over blobs and rows, and two table-valued functions. README.md has the types and errors of
 * each. It is thin: what a blob or a row means is the library's, and what it does with values is here.
 */
#include <sqlite3ext.h>
SQLITE_EXTENSION_INIT1

#include "box.h"
#include "packing.h"
#include "wkb.h"

/* Since 3.45 a function says at its creation that it gives a subtype; older versions take no notice. */
#ifndef SQLITE_RESULT_SUBTYPE
#define SQLITE_RESULT_SUBTYPE 0x1000000
#endif

static void *twkb_take(size_t size) { return sqlite3_malloc64(size); }
static void *twkb_grown(void *memory, size_t size) { return sqlite3_realloc64(memory, size); }
static void twkb_give_back(void *memory) { sqlite3_free(memory); }

/* Before 3.41 no call tells that a statement is interrupted, but one that begins meanwhile is interrupted at once. */
static bool twkb_pause(void *database) {
    return database && sqlite3_exec(database, "SELECT 1", NULL, NULL, NULL) == SQLITE_INTERRUPT;
}

/* An error of the statement. */
static void fail(sqlite3_context *context, const char *words) {
    char *message = sqlite3_mprintf("polytwkb: %s", words);
    if (message) {
        sqlite3_result_error(context, message, -1);
        sqlite3_free(message);
    } else {
        sqlite3_result_error_nomem(context);
    }
}

/* The error of a call that did not end well. */
static void fail_by(sqlite3_context *context, twkb_end end, const twkb_fault_text *fault) {
    if (end == TWKB_NO_MEMORY) sqlite3_result_error_nomem(context);
    if (end == TWKB_REFUSED) fail(context, fault->text);
    if (end == TWKB_CANCELLED) sqlite3_result_error_code(context, SQLITE_INTERRUPT);
}

/* The bytes of a value that is a blob. What is none is refused, with a fault for it. */
typedef struct {
    const uint8_t *bytes;
    size_t length;
} bytes_of_value;

static twkb_end take_blob(sqlite3_value *value, bytes_of_value *blob, twkb_fault_text *fault) {
    static const char *const types[] = {"", "an integer", "a float", "a text"};
    int type = sqlite3_value_type(value);
    if (type != SQLITE_BLOB) {
        sqlite3_snprintf(sizeof fault->text, fault->text, "%s in place of a blob", types[type]);
        return TWKB_REFUSED;
    }
    blob->bytes = sqlite3_value_blob(value);
    blob->length = (size_t)sqlite3_value_bytes(value);
    return blob->bytes || blob->length == 0 ? TWKB_DONE : TWKB_NO_MEMORY;
}

static bool is_null(sqlite3_value *value) { return sqlite3_value_type(value) == SQLITE_NULL; }

/* Gives a text or blob to the database, with its memory. */
static void give_text(sqlite3_context *context, twkb_output *output) {
    sqlite3_result_text64(context, (char *)output->memory, output->length, sqlite3_free, SQLITE_UTF8);
}
static void give_blob(sqlite3_context *context, twkb_output *output) {
    sqlite3_result_blob64(context, output->memory, output->length, sqlite3_free);
}

/* ---- functions of one blob */

static void twkb_fault(sqlite3_context *context, int count, sqlite3_value **values) {
    twkb_fault_text fault;
    bytes_of_value blob;
    (void)count;
    if (is_null(values[0])) return;
    twkb_end end = take_blob(values[0], &blob, &fault);
    if (end == TWKB_DONE) end = twkb_check(blob.bytes, blob.length, &fault);
    if (end == TWKB_NO_MEMORY) sqlite3_result_error_nomem(context);
    if (end == TWKB_REFUSED) sqlite3_result_text(context, fault.text, -1, SQLITE_TRANSIENT);
}

/* Reads a value that is one blob; on any other end the error of the statement is set. */
static bool read_value(sqlite3_context *context, sqlite3_value *value, twkb_small *small, twkb_arrays *found) {
    twkb_fault_text fault;
    bytes_of_value blob;
    if (is_null(value)) return false;
    twkb_end end = take_blob(value, &blob, &fault);
    if (end == TWKB_DONE) end = twkb_read(blob.bytes, blob.length, small, found, &fault);
    fail_by(context, end, &fault);
    return end == TWKB_DONE;
}

static void result_polyline(sqlite3_context *context, const polytwkb_point *points, uint64_t count) {
    twkb_output output = {0};
    if (twkb_put_polyline(points, count, &output) == TWKB_DONE) {
        give_text(context, &output);
    } else {
        sqlite3_free(output.memory);
        sqlite3_result_error_nomem(context);
    }
}

static void twkb_polyline(sqlite3_context *context, int count, sqlite3_value **values) {
    twkb_small small;
    twkb_arrays found;
    (void)count;
    if (!read_value(context, values[0], &small, &found)) return;
    if (twkb_has_points(found.rows[0].kind)) result_polyline(context, found.points, found.point_count);
    twkb_free_arrays(&found);
}

static void twkb_geojson(sqlite3_context *context, int count, sqlite3_value **values) {
    twkb_fault_text fault;
    twkb_output output = {0};
    bytes_of_value blob;
    (void)count;
    if (is_null(values[0])) return;
    twkb_end end = take_blob(values[0], &blob, &fault);
    if (end == TWKB_DONE) {
        end = twkb_put_geojson(blob.bytes, blob.length, sqlite3_context_db_handle(context), &output, &fault);
    }
    if (end == TWKB_DONE) {
        twkb_shrink(&output);
        give_text(context, &output);
        sqlite3_result_subtype(context, 'J');
    } else {
        sqlite3_free(output.memory);
        fail_by(context, end, &fault);
    }
}

/* Whether the second of two arguments says that ids are left out. */
static twkb_end take_drop(int count, sqlite3_value **values, bool *drops, twkb_fault_text *fault) {
    const char *word = count < 2 ? "refuse" : NULL;
    if (count == 2 && sqlite3_value_type(values[1]) == SQLITE_TEXT) {
        word = (const char *)sqlite3_value_text(values[1]);
        if (!word) return TWKB_NO_MEMORY;
    }
    return twkb_set_drop(word, word ? strlen(word) : 0, drops, fault);
}

static void twkb_wkb_of(sqlite3_context *context, int count, sqlite3_value **values) {
    twkb_small small;
    twkb_arrays found;
    twkb_fault_text fault;
    twkb_output output = {0};
    bool drops = false;
    twkb_end end = take_drop(count, values, &drops, &fault);
    if (end != TWKB_DONE) {
        fail_by(context, end, &fault);
        return;
    }
    if (!read_value(context, values[0], &small, &found)) return;
    end = drops ? TWKB_DONE : twkb_without_ids(&found, &fault);
    output.length = twkb_wkb_lengths(&found);
    if (end == TWKB_DONE && !twkb_make_room(&output, output.length)) end = TWKB_NO_MEMORY;
    if (end == TWKB_DONE) end = twkb_put_wkb(output.memory, &found, sqlite3_context_db_handle(context));
    twkb_free_arrays(&found);
    if (end == TWKB_DONE) {
        give_blob(context, &output);
    } else {
        sqlite3_free(output.memory);
        fail_by(context, end, &fault);
    }
}

#include "pack.h"
#include "tables.h"

/* ---- the extension */

typedef void function(sqlite3_context *, int, sqlite3_value **);

typedef struct {
    const char *name;
    int count, flags;
    function *call;
} function_form;

static const function_form functions[] = {
    {"twkb_fault", 1, 0, twkb_fault},       {"twkb_polyline", 1, 0, twkb_polyline},
    {"twkb_pack", 3, 0, twkb_pack_one},     {"twkb_geojson", 1, SQLITE_RESULT_SUBTYPE, twkb_geojson},
    {"twkb_wkb", 1, 0, twkb_wkb_of},        {"twkb_wkb", 2, 0, twkb_wkb_of},
    {"twkb_from_wkb", 2, 0, twkb_from_wkb}, {"twkb_from_wkb", 3, 0, twkb_from_wkb},
};

/* SQLite finds this by the name of the file. */
int sqlite3_modpolytwkb_init(sqlite3 *database, char **error, const sqlite3_api_routines *routines) {
    const int flags = SQLITE_UTF8 | SQLITE_DETERMINISTIC | SQLITE_INNOCUOUS;
    int code = SQLITE_OK;
    (void)error;
    SQLITE_EXTENSION_INIT2(routines);
    for (size_t place = 0; place < sizeof functions / sizeof *functions && code == SQLITE_OK; place++) {
        const function_form *it = &functions[place];
        code = sqlite3_create_function_v2(database, it->name, it->count, flags | it->flags, NULL, it->call, NULL, NULL,
                                          NULL);
    }
    for (int count = 5; count <= 6 && code == SQLITE_OK; count++) {
        code = sqlite3_create_window_function(database, "twkb_pack", count, flags, NULL, twkb_pack_step,
                                              twkb_pack_final, twkb_pack_value, twkb_pack_inverse, NULL);
    }
    for (size_t place = 0; place < sizeof forms / sizeof *forms && code == SQLITE_OK; place++) {
        code = sqlite3_create_module_v2(database, forms[place].name, &table_module, (void *)&forms[place], NULL);
    }
    return code;
}
