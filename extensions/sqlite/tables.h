/*
 * The table-valued functions twkb_rows(blob), twkb_show(blob) and twkb_box(blob), as virtual tables that are there
 * without CREATE. A part of mod_polytwkb.c, whose functions it calls.
 */
typedef enum { OF_ROWS, OF_HEADERS, OF_BOX } table_content;

/* What differs between them. The argument is the hidden column after all others. */
typedef struct {
    const char *name, *columns;
    int argument;
    table_content content;
} table_form;

static const table_form forms[] = {
    {"twkb_rows", "CREATE TABLE x(depth INTEGER, kind TEXT, id INTEGER, precision INTEGER, polyline TEXT, blob HIDDEN)",
     5, OF_ROWS},
    {"twkb_show",
     "CREATE TABLE x(level INTEGER, \"offset\" INTEGER, kind TEXT, precision INTEGER, metadata INTEGER, "
     "length INTEGER, points INTEGER, blob HIDDEN)",
     7, OF_HEADERS},
    {"twkb_box", "CREATE TABLE x(minx REAL, maxx REAL, miny REAL, maxy REAL, blob HIDDEN)", 4, OF_BOX},
};

typedef struct {
    sqlite3_vtab base;
    const table_form *form;
} table;

/* The rows of a blob and the number of the one that is next, with its points; or its headers; or its box. */
typedef struct {
    sqlite3_vtab_cursor base;
    uint8_t *argument; /* memory that stays for the next argument, from here to `found` */
    size_t argument_length, argument_room;
    twkb_arrays found;
    twkb_output headers;
    twkb_box box;
    uint64_t row, point;
    bool is_end;
    twkb_small small; /* the last field, which is not cleared */
} cursor;

static const table_form *form_of(const cursor *at) { return ((const table *)at->base.pVtab)->form; }

static int table_connect(sqlite3 *database, void *form, int count, const char *const *words, sqlite3_vtab **made,
                         char **error) {
    (void)count, (void)words, (void)error;
    int code = sqlite3_declare_vtab(database, ((const table_form *)form)->columns);
    if (code != SQLITE_OK) return code;
    table *it = sqlite3_malloc64(sizeof *it);
    if (!it) return SQLITE_NOMEM;
    memset(it, 0, sizeof *it);
    it->form = form;
    *made = &it->base;
    return sqlite3_vtab_config(database, SQLITE_VTAB_INNOCUOUS);
}

static int table_disconnect(sqlite3_vtab *base) {
    sqlite3_free(base);
    return SQLITE_OK;
}

/* The argument is given as a constraint; a plan in which it is not known yet is none. */
static int table_best_index(sqlite3_vtab *base, sqlite3_index_info *info) {
    for (int at = 0; at < info->nConstraint; at++) {
        if (info->aConstraint[at].iColumn != ((table *)base)->form->argument) continue;
        if (info->aConstraint[at].op != SQLITE_INDEX_CONSTRAINT_EQ) continue;
        if (!info->aConstraint[at].usable) return SQLITE_CONSTRAINT;
        info->aConstraintUsage[at].argvIndex = 1;
        info->aConstraintUsage[at].omit = 1;
        info->estimatedCost = 10;
        info->estimatedRows = 10;
        return SQLITE_OK;
    }
    return SQLITE_OK;
}

static int table_open(sqlite3_vtab *base, sqlite3_vtab_cursor **made) {
    cursor *at = sqlite3_malloc64(sizeof *at);
    (void)base;
    if (!at) return SQLITE_NOMEM;
    memset(at, 0, offsetof(cursor, small));
    *made = &at->base;
    return SQLITE_OK;
}

static void clear(cursor *at) {
    twkb_free_arrays(&at->found);
    sqlite3_free(at->headers.memory);
    memset((char *)at + offsetof(cursor, found), 0, offsetof(cursor, small) - offsetof(cursor, found));
    at->is_end = true;
}

static int table_close(sqlite3_vtab_cursor *base) {
    clear((cursor *)base);
    sqlite3_free(((cursor *)base)->argument);
    sqlite3_free(base);
    return SQLITE_OK;
}

/* The error of a table's statement. */
static int table_error(sqlite3_vtab *base, const char *words) {
    sqlite3_free(base->zErrMsg);
    base->zErrMsg = sqlite3_mprintf("polytwkb: %s", words);
    return base->zErrMsg ? SQLITE_ERROR : SQLITE_NOMEM;
}

static int table_next(sqlite3_vtab_cursor *base) {
    cursor *at = (cursor *)base;
    if (form_of(at)->content == OF_BOX) {
        at->is_end = true;
    } else if (form_of(at)->content == OF_HEADERS) {
        at->is_end = at->row + 1 == at->headers.length / sizeof(polytwkb_header);
    } else {
        at->point += at->found.rows[at->row].points;
        at->is_end = at->row + 1 == at->found.row_count;
    }
    at->row++;
    return SQLITE_OK;
}

/* Keeps the argument for its column. */
static twkb_end keep_argument(cursor *at, const bytes_of_value *blob) {
    if (at->argument_room < blob->length) {
        sqlite3_free(at->argument);
        at->argument_room = 0;
        at->argument = sqlite3_malloc64(2 * blob->length);
        if (!at->argument) return TWKB_NO_MEMORY;
        at->argument_room = 2 * blob->length;
    }
    at->argument_length = blob->length;
    if (blob->length > 0) memcpy(at->argument, blob->bytes, blob->length);
    return TWKB_DONE;
}

/* Reads the box of a blob. One without points has none, and so no row. */
static twkb_end read_box(cursor *at, const bytes_of_value *blob, twkb_fault_text *fault) {
    twkb_end end = twkb_read(blob->bytes, blob->length, &at->small, &at->found, fault);
    if (end == TWKB_DONE) at->is_end = !twkb_box_of(&at->found, &at->box);
    return end;
}

/* Reads the rows, the headers or the box of a blob. */
static twkb_end read_table(cursor *at, sqlite3_value *value, twkb_fault_text *fault) {
    bytes_of_value blob;
    twkb_end end = take_blob(value, &blob, fault);
    at->is_end = false;
    if (end == TWKB_DONE) end = keep_argument(at, &blob);
    if (end != TWKB_DONE) return end;
    if (form_of(at)->content == OF_BOX) return read_box(at, &blob, fault);
    if (form_of(at)->content == OF_ROWS) return twkb_read(blob.bytes, blob.length, &at->small, &at->found, fault);
    return twkb_put_headers(blob.bytes, blob.length, &at->headers, fault);
}

static int table_filter(sqlite3_vtab_cursor *base, int number, const char *name, int count, sqlite3_value **values) {
    cursor *at = (cursor *)base;
    twkb_fault_text fault;
    (void)number, (void)name;
    clear(at);
    if (count == 0) return table_error(base->pVtab, "a blob is missing: it is the argument");
    if (is_null(values[0])) return SQLITE_OK;
    twkb_end end = read_table(at, values[0], &fault);
    if (end == TWKB_NO_MEMORY) return SQLITE_NOMEM;
    if (end == TWKB_REFUSED) return table_error(base->pVtab, fault.text);
    return SQLITE_OK;
}

static int table_eof(sqlite3_vtab_cursor *base) { return ((cursor *)base)->is_end; }

static int table_rowid(sqlite3_vtab_cursor *base, sqlite3_int64 *row) {
    *row = (sqlite3_int64)((cursor *)base)->row + 1;
    return SQLITE_OK;
}

static void result_of_row(const cursor *at, sqlite3_context *context, int column) {
    const polytwkb_row *row = &at->found.rows[at->row];
    switch (column) {
    case 0: sqlite3_result_int64(context, row->depth); break;
    case 1: sqlite3_result_text(context, twkb_kinds[row->kind].word, -1, SQLITE_STATIC); break;
    case 2:
        if (row->has_id) sqlite3_result_int64(context, row->id);
        break;
    case 3:
        if (row->precision != POLYTWKB_NO_PRECISION) sqlite3_result_int(context, row->precision);
        break;
    default:
        if (twkb_has_points(row->kind)) result_polyline(context, at->found.points + at->point, row->points);
    }
}

static void result_of_header(const cursor *at, sqlite3_context *context, int column) {
    const polytwkb_header *header = (const polytwkb_header *)at->headers.memory + at->row;
    const int64_t numbers[] = {
        header->level,           (int64_t)header->offset, 0, header->precision, header->metadata,
        (int64_t)header->length, (int64_t)header->points,
    };
    if (column == 2) {
        sqlite3_result_text(context, twkb_kinds[header->kind].word, -1, SQLITE_STATIC);
    } else {
        sqlite3_result_int64(context, numbers[column]);
    }
}

static void result_of_box(const cursor *at, sqlite3_context *context, int column) {
    const double numbers[] = {at->box.minx, at->box.maxx, at->box.miny, at->box.maxy};
    sqlite3_result_double(context, numbers[column]);
}

static int table_column(sqlite3_vtab_cursor *base, sqlite3_context *context, int column) {
    const cursor *at = (const cursor *)base;
    table_content content = form_of(at)->content;
    if (column == form_of(at)->argument) {
        sqlite3_result_blob64(context, at->argument, at->argument_length, SQLITE_TRANSIENT);
    } else if (content == OF_BOX) {
        result_of_box(at, context, column);
    } else if (content == OF_HEADERS) {
        result_of_header(at, context, column);
    } else {
        result_of_row(at, context, column);
    }
    return SQLITE_OK;
}

static const sqlite3_module table_module = {
    .xConnect = table_connect,
    .xDisconnect = table_disconnect,
    .xBestIndex = table_best_index,
    .xOpen = table_open,
    .xClose = table_close,
    .xFilter = table_filter,
    .xNext = table_next,
    .xEof = table_eof,
    .xColumn = table_column,
    .xRowid = table_rowid,
};
