/*
 * The functions and the aggregate that pack: rows, or WKB, to a blob. A part of mod_polytwkb.c, whose functions it calls.
 */
/* The bytes of a text; false if memory is refused. */
static bool take_text(sqlite3_value *value, const uint8_t **text, size_t *length) {
    *text = sqlite3_value_text(value);
    *length = (size_t)sqlite3_value_bytes(value);
    return *text != NULL;
}

/* A whole number, or one that is out of range of depths and precisions. */
static int64_t whole_number(sqlite3_value *value) {
    return sqlite3_value_type(value) == SQLITE_INTEGER ? sqlite3_value_int64(value) : TWKB_NO_NUMBER;
}

/* Takes kind, precision and polyline. A kind that is no text is none of the kinds. */
static twkb_end take_common(sqlite3_value **values, twkb_values *row, twkb_fault_text *fault) {
    const uint8_t *kind;
    if (sqlite3_value_type(values[0]) == SQLITE_TEXT) {
        if (!take_text(values[0], &kind, &row->kind_length)) return TWKB_NO_MEMORY;
        row->kind = (const char *)kind;
    }
    row->has_precision = !is_null(values[1]);
    row->precision = whole_number(values[1]);
    if (is_null(values[2])) return TWKB_DONE;
    if (sqlite3_value_type(values[2]) != SQLITE_TEXT) {
        sqlite3_snprintf(sizeof fault->text, fault->text, "a polyline is a text");
        return TWKB_REFUSED;
    }
    return take_text(values[2], &row->polyline, &row->polyline_length) ? TWKB_DONE : TWKB_NO_MEMORY;
}

static void free_packing(twkb_packing *packing) {
    sqlite3_free(packing->rows);
    sqlite3_free(packing->points);
}

/* The blob of the rows, NULL if there are none. */
static void result_packed(sqlite3_context *context, const twkb_packing *packing, bool is_only) {
    twkb_output output = {0};
    twkb_fault_text fault;
    twkb_end end = twkb_finish(packing, is_only, &output, &fault);
    if (end == TWKB_DONE && output.length > 0) {
        give_blob(context, &output);
        return;
    }
    sqlite3_free(output.memory);
    fail_by(context, end, &fault);
}

static void twkb_pack_one(sqlite3_context *context, int count, sqlite3_value **values) {
    twkb_packing packing = {0};
    twkb_values row = {0};
    twkb_fault_text fault;
    (void)count;
    if (is_null(values[0]) || is_null(values[1]) || is_null(values[2])) return;
    twkb_end end = take_common(values, &row, &fault);
    if (end == TWKB_DONE) end = twkb_put_row(&packing, &row);
    if (end == TWKB_DONE) {
        result_packed(context, &packing, true);
    } else {
        fail_by(context, end, &fault);
    }
    free_packing(&packing);
}

static bool take_style(twkb_packing *packing, sqlite3_value *value) {
    const uint8_t *word;
    size_t length;
    return sqlite3_value_type(value) == SQLITE_TEXT && take_text(value, &word, &length) &&
           twkb_set_style(packing, (const char *)word, length);
}

/* The arguments of twkb_from_wkb: precision, and a style if it is given. */
static twkb_end take_precision(twkb_wkb *it, int count, sqlite3_value **values) {
    int64_t precision = whole_number(values[1]);
    if (precision < -8 || precision > 7) return twkb_refuse_words(POLYTWKB_BAD_PRECISION, it->fault);
    it->precision = (int8_t)precision;
    if (count < 3 || take_style(&it->packing, values[2])) return TWKB_DONE;
    sqlite3_snprintf(sizeof it->fault->text, it->fault->text, "%s", twkb_bad_style);
    return TWKB_REFUSED;
}

static void twkb_from_wkb(sqlite3_context *context, int count, sqlite3_value **values) {
    bytes_of_value wkb;
    twkb_fault_text fault;
    twkb_wkb it = {.fault = &fault, .database = sqlite3_context_db_handle(context)};
    if (is_null(values[0]) || is_null(values[1])) return;
    twkb_end end = take_blob(values[0], &wkb, &fault);
    if (end == TWKB_DONE) end = take_precision(&it, count, values);
    if (end == TWKB_DONE) {
        it.bytes = wkb.bytes, it.length = wkb.length;
        end = twkb_read_wkb(&it);
    }
    if (end == TWKB_DONE) {
        result_packed(context, &it.packing, true);
    } else {
        fail_by(context, end, &fault);
    }
    free_packing(&it.packing);
}

/* A row of five NULLs, as an outer join gives it, is no row. */
static bool is_no_row(sqlite3_value **values) {
    for (int place = 0; place < 5; place++) {
        if (!is_null(values[place])) return false;
    }
    return true;
}

/* The rows of an aggregate so far. After an error nothing is looked at. */
typedef struct {
    twkb_packing packing;
    bool has_failed;
} aggregate;

static void fail_aggregate(sqlite3_context *context, aggregate *it, twkb_end end, const twkb_fault_text *fault) {
    it->has_failed = it->has_failed || end != TWKB_DONE;
    fail_by(context, end, fault);
}

static void twkb_pack_step(sqlite3_context *context, int count, sqlite3_value **values) {
    twkb_fault_text fault;
    if (is_no_row(values)) return;
    aggregate *it = sqlite3_aggregate_context(context, sizeof *it);
    if (!it) {
        sqlite3_result_error_nomem(context);
        return;
    }
    if (it->has_failed) return;
    if (count == 6 && !take_style(&it->packing, values[5])) {
        sqlite3_snprintf(sizeof fault.text, fault.text, "%s", twkb_bad_style);
        fail_aggregate(context, it, TWKB_REFUSED, &fault);
        return;
    }
    twkb_values row = {.depth = whole_number(values[0]), .id = whole_number(values[2])};
    row.has_id = !is_null(values[2]);
    row.is_bad_id = row.has_id && sqlite3_value_type(values[2]) != SQLITE_INTEGER;
    sqlite3_value *common[] = {values[1], values[3], values[4]};
    twkb_end end = take_common(common, &row, &fault);
    if (end == TWKB_DONE) end = twkb_put_row(&it->packing, &row);
    fail_aggregate(context, it, end, &fault);
}

/* The blob of the rows of a window so far. */
static void twkb_pack_value(sqlite3_context *context) {
    aggregate *it = sqlite3_aggregate_context(context, 0);
    if (it && !it->has_failed) result_packed(context, &it->packing, false);
}

/* A row leaves the window. The first one is the geometry itself, and without it there is none. */
static void twkb_pack_inverse(sqlite3_context *context, int count, sqlite3_value **values) {
    (void)count, (void)values;
    fail(context, "a window of twkb_pack begins at the first row of its partition");
}

static void twkb_pack_final(sqlite3_context *context) {
    aggregate *it = sqlite3_aggregate_context(context, 0);
    if (!it) return;
    twkb_pack_value(context);
    free_packing(&it->packing);
}
