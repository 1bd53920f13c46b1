/*
 * TWKB in PostgreSQL: functions over blobs and rows, an aggregate and two set-returning functions. README.md has the
 * types and errors of each. It is thin: what a blob or a row means is the library's.
 *
 * Memory is the server's, so that an error frees it. The library takes its own by malloc and gives it back before it
 * returns, and no error is raised while it runs.
 */
#include "postgres.h"

#include "fmgr.h"
#include "funcapi.h"
#include "miscadmin.h"
#include "utils/builtins.h"
#include "utils/geo_decls.h"
#include "utils/memutils.h"

#include "box.h"
#include "packing.h"
#include "wkb.h"

PG_MODULE_MAGIC;

static void *twkb_take(size_t size) { return palloc_extended(size, MCXT_ALLOC_HUGE | MCXT_ALLOC_NO_OOM); }
static void *twkb_grown(void *memory, size_t size) {
    return memory ? repalloc_huge(memory, size) : MemoryContextAllocHuge(CurrentMemoryContext, size);
}
static void twkb_give_back(void *memory) { pfree(memory); }
static bool twkb_pause(void *database) {
    (void)database;
    CHECK_FOR_INTERRUPTS();
    return false;
}

/* Raises the error of a call that did not end well: state is that of a refusal. */
static void check_end(twkb_end end, const twkb_fault_text *fault, int state) {
    if (end == TWKB_NO_MEMORY) ereport(ERROR, (errcode(ERRCODE_OUT_OF_MEMORY), errmsg("polytwkb: out of memory")));
    if (end == TWKB_REFUSED) ereport(ERROR, (errcode(state), errmsg("polytwkb: %s", fault->text)));
    CHECK_FOR_INTERRUPTS();
}

/* Of a blob, and of rows, a polyline or a style. */
#define REFUSED_BLOB ERRCODE_INVALID_BINARY_REPRESENTATION
#define REFUSED_VALUE ERRCODE_INVALID_PARAMETER_VALUE

static const uint8_t *bytes_of(const bytea *blob) { return (const uint8_t *)VARDATA_ANY(blob); }

static twkb_arrays arrays_of(const bytea *blob, twkb_small *small) {
    twkb_arrays found;
    twkb_fault_text fault;
    check_end(twkb_read(bytes_of(blob), VARSIZE_ANY_EXHDR(blob), small, &found, &fault), &fault, REFUSED_BLOB);
    return found;
}

/* A value of a text or blob, which was written after room for its header. */
static Datum value_of(void *memory, size_t length) {
    if (length > MaxAllocSize - VARHDRSZ) {
        ereport(ERROR, (errcode(ERRCODE_PROGRAM_LIMIT_EXCEEDED),
                        errmsg("polytwkb: a result of %zu bytes is longer than a value may be", length)));
    }
    SET_VARSIZE(memory, VARHDRSZ + length);
    return PointerGetDatum(memory);
}

static Datum polyline_of(const polytwkb_point *points, uint64_t count, twkb_output *output) {
    check_end(twkb_put_polyline(points, count, output), NULL, REFUSED_BLOB);
    return value_of(output->memory, output->length);
}

/* ---- functions of one blob */

PG_FUNCTION_INFO_V1(twkb_fault);
Datum twkb_fault(PG_FUNCTION_ARGS) {
    bytea *blob = PG_GETARG_BYTEA_PP(0);
    twkb_fault_text fault;
    twkb_end end = twkb_check(bytes_of(blob), VARSIZE_ANY_EXHDR(blob), &fault);
    if (end == TWKB_REFUSED) PG_RETURN_TEXT_P(cstring_to_text(fault.text));
    check_end(end, &fault, REFUSED_BLOB);
    PG_RETURN_NULL();
}

PG_FUNCTION_INFO_V1(twkb_polyline);
Datum twkb_polyline(PG_FUNCTION_ARGS) {
    twkb_small small;
    twkb_arrays found = arrays_of(PG_GETARG_BYTEA_PP(0), &small);
    twkb_output output = {.front = VARHDRSZ};
    bool is_line = twkb_has_points(found.rows[0].kind);
    Datum polyline = is_line ? polyline_of(found.points, found.point_count, &output) : (Datum)0;
    twkb_free_arrays(&found);
    if (!is_line) PG_RETURN_NULL();
    PG_RETURN_DATUM(polyline);
}

PG_FUNCTION_INFO_V1(twkb_geojson);
Datum twkb_geojson(PG_FUNCTION_ARGS) {
    bytea *blob = PG_GETARG_BYTEA_PP(0);
    twkb_output output = {.front = VARHDRSZ};
    twkb_fault_text fault;
    check_end(twkb_put_geojson(bytes_of(blob), VARSIZE_ANY_EXHDR(blob), NULL, &output, &fault), &fault, REFUSED_BLOB);
    twkb_shrink(&output);
    PG_RETURN_DATUM(value_of(output.memory, output.length));
}

/* The box as the server's own type, which a GiST index takes. */
PG_FUNCTION_INFO_V1(twkb_box_of_blob);
Datum twkb_box_of_blob(PG_FUNCTION_ARGS) {
    twkb_small small;
    twkb_arrays found = arrays_of(PG_GETARG_BYTEA_PP(0), &small);
    twkb_box ends;
    bool has_points = twkb_box_of(&found, &ends);
    twkb_free_arrays(&found);
    if (!has_points) PG_RETURN_NULL();
    BOX *box = palloc(sizeof *box);
    *box = (BOX){.high = {ends.maxx, ends.maxy}, .low = {ends.minx, ends.miny}};
    PG_RETURN_BOX_P(box);
}

PG_FUNCTION_INFO_V1(twkb_wkb_of_blob);
Datum twkb_wkb_of_blob(PG_FUNCTION_ARGS) {
    twkb_small small;
    twkb_fault_text fault;
    bool drops;
    text *word = PG_GETARG_TEXT_PP(1);
    check_end(twkb_set_drop(VARDATA_ANY(word), VARSIZE_ANY_EXHDR(word), &drops, &fault), &fault, REFUSED_VALUE);
    twkb_arrays found = arrays_of(PG_GETARG_BYTEA_PP(0), &small);
    twkb_output output = {.front = VARHDRSZ, .length = twkb_wkb_lengths(&found)};
    if (!drops) check_end(twkb_without_ids(&found, &fault), &fault, REFUSED_VALUE);
    if (!twkb_make_room(&output, output.length)) check_end(TWKB_NO_MEMORY, NULL, REFUSED_VALUE);
    twkb_put_wkb(output.memory + VARHDRSZ, &found, NULL);
    twkb_free_arrays(&found);
    PG_RETURN_DATUM(value_of(output.memory, output.length));
}

/* ---- sets */

/* A word of a kind as a value: it is short, so the header has one byte. */
typedef struct {
    char header_and_word[24];
} kind_text;

static Datum kind_value(uint16_t kind, kind_text *value) {
    SET_VARSIZE_SHORT(value, VARHDRSZ_SHORT + twkb_kinds[kind].length);
    memcpy(VARDATA_SHORT(value), twkb_kinds[kind].word, twkb_kinds[kind].length);
    return PointerGetDatum(value);
}

/*
 * Begins a set with the columns that the statement expects. The server's own function for this also copies their
 * description, compares the copy and frees it, for each blob; it is called for its errors if no set can be given.
 */
static Tuplestorestate *begin_set(FunctionCallInfo fcinfo, TupleDesc *columns) {
    ReturnSetInfo *set = (ReturnSetInfo *)fcinfo->resultinfo;
    if (!set || !IsA(set, ReturnSetInfo) || !(set->allowedModes & SFRM_Materialize) || !set->expectedDesc) {
        InitMaterializedSRF(fcinfo, MAT_SRF_USE_EXPECTED_DESC);
    }
    MemoryContext before = MemoryContextSwitchTo(set->econtext->ecxt_per_query_memory);
    set->setResult = tuplestore_begin_heap((set->allowedModes & SFRM_Materialize_Random) != 0, false, work_mem);
    MemoryContextSwitchTo(before);
    set->returnMode = SFRM_Materialize;
    *columns = set->expectedDesc;
    return set->setResult;
}

PG_FUNCTION_INFO_V1(twkb_rows);
Datum twkb_rows(PG_FUNCTION_ARGS) {
    twkb_small small;
    twkb_arrays found = arrays_of(PG_GETARG_BYTEA_PP(0), &small);
    twkb_output output = {.front = VARHDRSZ};
    const polytwkb_point *points = found.points;
    kind_text kind;
    TupleDesc columns;
    Tuplestorestate *set = begin_set(fcinfo, &columns);
    for (uint64_t place = 0; place < found.row_count; place++) {
        const polytwkb_row *row = &found.rows[place];
        bool nulls[] = {
            false, false, !row->has_id, row->precision == POLYTWKB_NO_PRECISION, !twkb_has_points(row->kind),
        };
        Datum values[] = {
            Int32GetDatum((int32)row->depth),
            kind_value(row->kind, &kind),
            Int64GetDatum(row->id),
            Int32GetDatum(row->precision),
            nulls[4] ? (Datum)0 : polyline_of(points, row->points, &output),
        };
        tuplestore_putvalues(set, columns, values, nulls);
        points += row->points;
        CHECK_FOR_INTERRUPTS();
    }
    if (output.memory) pfree(output.memory);
    twkb_free_arrays(&found);
    return (Datum)0;
}

PG_FUNCTION_INFO_V1(twkb_show);
Datum twkb_show(PG_FUNCTION_ARGS) {
    bytea *blob = PG_GETARG_BYTEA_PP(0);
    twkb_output output = {0};
    twkb_fault_text fault;
    kind_text kind;
    bool nulls[7] = {false};
    check_end(twkb_put_headers(bytes_of(blob), VARSIZE_ANY_EXHDR(blob), &output, &fault), &fault, REFUSED_BLOB);
    const polytwkb_header *headers = (const polytwkb_header *)output.memory;
    TupleDesc columns;
    Tuplestorestate *set = begin_set(fcinfo, &columns);
    for (size_t place = 0; place < output.length / sizeof *headers; place++) {
        const polytwkb_header *header = &headers[place];
        Datum values[] = {
            Int32GetDatum((int32)header->level),  Int64GetDatum((int64)header->offset),
            kind_value(header->kind, &kind),      Int32GetDatum(header->precision),
            Int32GetDatum(header->metadata),      Int64GetDatum((int64)header->length),
            Int64GetDatum((int64)header->points),
        };
        tuplestore_putvalues(set, columns, values, nulls);
        CHECK_FOR_INTERRUPTS();
    }
    pfree(output.memory);
    return (Datum)0;
}

/* ---- functions that pack */

/* Takes kind, precision and polyline from three arguments. */
static void take_common(FunctionCallInfo fcinfo, int kind, int precision, int polyline, twkb_values *row) {
    if (!PG_ARGISNULL(kind)) {
        text *word = PG_GETARG_TEXT_PP(kind);
        row->kind = VARDATA_ANY(word);
        row->kind_length = VARSIZE_ANY_EXHDR(word);
    }
    row->has_precision = !PG_ARGISNULL(precision);
    row->precision = row->has_precision ? PG_GETARG_INT32(precision) : 0;
    if (!PG_ARGISNULL(polyline)) {
        text *line = PG_GETARG_TEXT_PP(polyline);
        row->polyline = (const uint8_t *)VARDATA_ANY(line);
        row->polyline_length = VARSIZE_ANY_EXHDR(line);
    }
}

/* The blob of the rows; NULL if there are none. */
static Datum packed(FunctionCallInfo fcinfo, const twkb_packing *packing, bool is_only) {
    twkb_output output = {.front = VARHDRSZ};
    twkb_fault_text fault = {""};
    check_end(twkb_finish(packing, is_only, &output, &fault), &fault, REFUSED_VALUE);
    if (output.length == 0) PG_RETURN_NULL();
    return value_of(output.memory, output.length);
}

/* A polyline of up to so many points, or twice as many characters, is decoded into memory of the stack. */
#define SMALL_LINE 1024

PG_FUNCTION_INFO_V1(twkb_pack_one);
Datum twkb_pack_one(PG_FUNCTION_ARGS) {
    polytwkb_row only;
    polytwkb_point points[SMALL_LINE];
    twkb_packing packing = {.rows = &only, .row_room = 1};
    twkb_values row = {0};
    take_common(fcinfo, 0, 1, 2, &row);
    if (row.polyline_length / 2 <= SMALL_LINE) packing.points = points, packing.point_room = SMALL_LINE;
    check_end(twkb_put_row(&packing, &row), NULL, REFUSED_VALUE);
    return packed(fcinfo, &packing, true);
}

static void take_style(FunctionCallInfo fcinfo, int place, twkb_packing *packing) {
    if (!PG_ARGISNULL(place)) {
        text *word = PG_GETARG_TEXT_PP(place);
        if (twkb_set_style(packing, VARDATA_ANY(word), VARSIZE_ANY_EXHDR(word))) return;
    }
    ereport(ERROR, (errcode(REFUSED_VALUE), errmsg("polytwkb: %s", twkb_bad_style)));
}

PG_FUNCTION_INFO_V1(twkb_from_wkb);
Datum twkb_from_wkb(PG_FUNCTION_ARGS) {
    bytea *wkb = PG_GETARG_BYTEA_PP(0);
    int32 precision = PG_GETARG_INT32(1);
    twkb_fault_text fault;
    twkb_wkb it = {.bytes = bytes_of(wkb), .length = VARSIZE_ANY_EXHDR(wkb), .fault = &fault};
    if (precision < -8 || precision > 7) {
        check_end(twkb_refuse_words(POLYTWKB_BAD_PRECISION, &fault), &fault, REFUSED_VALUE);
    }
    it.precision = (int8_t)precision;
    take_style(fcinfo, 2, &it.packing);
    check_end(twkb_read_wkb(&it), &fault, REFUSED_BLOB);
    return packed(fcinfo, &it.packing, true);
}

/* The rows so far, in memory that lives as long as the aggregate does. */
static twkb_packing *packing_of(FunctionCallInfo fcinfo, MemoryContext *context) {
    if (!AggCheckCallContext(fcinfo, context)) elog(ERROR, "twkb_pack_step is a part of an aggregate");
    if (!PG_ARGISNULL(0)) return (twkb_packing *)PG_GETARG_POINTER(0);
    return MemoryContextAllocZero(*context, sizeof(twkb_packing));
}

/* A row of five NULLs, as an outer join gives it, is no row. */
static bool is_no_row(FunctionCallInfo fcinfo) {
    for (int place = 1; place <= 5; place++) {
        if (!PG_ARGISNULL(place)) return false;
    }
    return true;
}

PG_FUNCTION_INFO_V1(twkb_pack_step);
Datum twkb_pack_step(PG_FUNCTION_ARGS) {
    MemoryContext context, before;
    twkb_packing *packing = packing_of(fcinfo, &context);
    twkb_values row = {.depth = TWKB_NO_NUMBER};
    if (is_no_row(fcinfo)) PG_RETURN_POINTER(packing);
    if (PG_NARGS() == 7) take_style(fcinfo, 6, packing);
    take_common(fcinfo, 2, 4, 5, &row);
    if (!PG_ARGISNULL(1)) row.depth = PG_GETARG_INT32(1);
    row.has_id = !PG_ARGISNULL(3);
    if (row.has_id) row.id = PG_GETARG_INT64(3);
    before = MemoryContextSwitchTo(context);
    check_end(twkb_put_row(packing, &row), NULL, REFUSED_VALUE);
    MemoryContextSwitchTo(before);
    PG_RETURN_POINTER(packing);
}

PG_FUNCTION_INFO_V1(twkb_pack_final);
Datum twkb_pack_final(PG_FUNCTION_ARGS) {
    if (PG_ARGISNULL(0)) PG_RETURN_NULL();
    return packed(fcinfo, (const twkb_packing *)PG_GETARG_POINTER(0), false);
}
