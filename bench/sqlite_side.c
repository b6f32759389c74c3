// The calls of a hoofrun input, carried out by SQLite on a database in memory.
//
//   sqlite_side <input >answers
//
// A line for each call, 'accepted,ROWS' or 'refused,0'; ROWS counts the rows that a statement changed,
// those of its actions included. The seconds that the calls took, and SQLite's version, go to standard
// error: reading the input, making the tables, preparing the statements and printing are not in those
// seconds.
//
//   sqlite_side orphans TIMES <input >answer
//   sqlite_side bound TIMES <input >answer
//
// The calls are carried out, then the question is asked TIMES times: orphans are listed by SQLite's own
// check, the bound of a delete is summed by a SELECT. The first line is the seconds of the fastest answer, in
// which nothing else is; then comes a line 'KEY,ROW' for each orphan, or one line with the bound. For the
// orphans all keys must have the same child table.
//
// The schema is taken for valid, and both columns of a key's pair are folded or neither is.
//
// SQLite has no windowed key. The same rules are triggers, which judge each row: so a statement changes one
// parent row of such a key, which is immediate, not broken, and has no NULL and no folded day in its parent.
#include "side.h"

#include <sqlite3.h>
#include <stdarg.h>

enum { MOST_TABLES = 16, MOST_COLUMNS = 8, MOST_LEVELS = 9, TABLE_BYTES = 80, KEY_BYTES = 16 };
enum { INSERT = 1, UPDATE, DELETE, BEGIN, SAVEPOINT, RELEASE, ROLLBACK_TO, ROLLBACK, COMMIT };
enum { DELETE_WHERE = COMMIT + 1, UPDATE_WHERE, WHERE_KINDS = 2 };
enum { SEEKS_NULL = 1, SETS_NULL = 2 };
enum { SET_NULL = 2 }; // of the actions

// A table or foreign key record as its bytes, read where it is needed.
typedef const uint8_t *record;

static sqlite3 *db;
static int table_count, key_count, open_levels;
static record table_records, key_records;
static sqlite3_stmt *row_statements[DELETE + 1][MOST_TABLES];
// By kind, whether NULL is sought, table, column sought and column to set, which is 0 for a deletion.
static sqlite3_stmt *where_statements[WHERE_KINDS][2][MOST_TABLES][MOST_COLUMNS][MOST_COLUMNS];
static sqlite3_stmt *level_statements[ROLLBACK_TO + 1][MOST_LEVELS + 1];
static sqlite3_stmt *begin_statement, *rollback_statement, *commit_statement;
static sqlite3_stmt *check_statement, *bound_statement;

static record table_record(int t) { return table_records + TABLE_BYTES * t; }
static record key_record(int k) { return key_records + KEY_BYTES * k; }
static int row_count(int t) { return field16(table_record(t)); }
static int column_count(int t) { return table_record(t)[2]; }
static int is_folded(int t, int column) { return table_record(t)[9] >> column & 1; }
static int is_not_null(int t, int column) { return table_record(t)[3] >> column & 1; }
static int is_windowed(record key) { return key[15]; }

static void stop(const char *where) {
    fprintf(stderr, "sqlite_side: %s: %s\n", where, db ? sqlite3_errmsg(db) : "no database");
    exit(2);
}

// An SQL statement that is put together piece by piece.
static char sql[1 << 16];
static size_t sql_length;

static void sql_start(void) { sql_length = 0; }
static void add(const char *format, ...) {
    va_list values;
    va_start(values, format);
    sql_length += vsnprintf(sql + sql_length, sizeof sql - sql_length, format, values);
    va_end(values);
    if (sql_length >= sizeof sql) stop("statement too long");
}

static void add_columns(const uint8_t *columns, int count) {
    add("(");
    for (int i = 0; i < count; i++) add("%sc%d", i ? "," : "", columns[i]);
    add(")");
}

static void execute(const char *text) {
    if (sqlite3_exec(db, text, 0, 0, 0) != SQLITE_OK) stop(text);
}

static sqlite3_stmt *prepared(void) {
    sqlite3_stmt *statement;
    if (sqlite3_prepare_v3(db, sql, -1, SQLITE_PREPARE_PERSISTENT, &statement, 0) != SQLITE_OK) stop(sql);
    return statement;
}

// SQLite does not prepare a statement that uses a broken key. There is none then, and its calls are refused.
static sqlite3_stmt *prepared_unless_broken(void) {
    static const char broken[] = "foreign key mismatch";
    sqlite3_stmt *statement;
    int code = sqlite3_prepare_v3(db, sql, -1, SQLITE_PREPARE_PERSISTENT, &statement, 0);
    if (code != SQLITE_OK && strncmp(sqlite3_errmsg(db), broken, sizeof broken - 1) != 0) stop(sql);
    return statement;
}

// The columns of a mask, in rising order; answers their number.
static int mask_columns(int mask, uint8_t *columns) {
    int count = 0;
    for (int c = 0; c < 8; c++)
        if (mask >> c & 1) columns[count++] = c;
    return count;
}

// A value of a folded column is the text of its bytes, the lowest first, without the zeros at the end.
static int text_length(const void *value) {
    const uint8_t *bytes = value;
    int length = 8;
    while (length && !bytes[length - 1]) length--;
    return length;
}

static void add_default(int t, int column) {
    const uint8_t *bytes = table_record(t) + 16 + 8 * column;
    if (is_folded(t, column)) {
        add(" DEFAULT (CAST(x'");
        for (int i = 0; i < text_length(bytes); i++) add("%02X", bytes[i]);
        add("' AS TEXT))");
    } else {
        int64_t value;
        memcpy(&value, bytes, 8);
        add(" DEFAULT (%lld)", (long long)value);
    }
}

static void add_column_definitions(int t) {
    record table = table_record(t);
    for (int c = 0; c < column_count(t); c++) {
        add(",c%d %s", c, is_folded(t, c) ? "TEXT COLLATE NOCASE" : "INTEGER");
        if (is_not_null(t, c)) add(" NOT NULL");
        if (table[8] >> c & 1) add(" DEFAULT NULL");
        else add_default(t, c);
    }
}

// The match is left out: SQLite has no MATCH FULL, so a half-filled key is no orphan here.
static void add_foreign_key(record key) {
    static const char *const actions[] = {"NO ACTION", "RESTRICT", "SET NULL", "SET DEFAULT", "CASCADE"};
    add(",FOREIGN KEY");
    add_columns(key + 6, key[5]);
    add(" REFERENCES t%d", key[1]);
    add_columns(key + 10, key[5]);
    add(" ON DELETE %s ON UPDATE %s", actions[key[3]], actions[key[4]]);
    if (key[2]) add(" DEFERRABLE INITIALLY DEFERRED");
}

// The row number is SQLite's own row id. SQLite runs the key declared last first, so keys go backwards.
static void create_table(int t) {
    sql_start();
    add("CREATE TABLE t%d(r INTEGER PRIMARY KEY", t);
    add_column_definitions(t);
    for (int u = 4; u < 8 && table_record(t)[u]; u++) {
        uint8_t columns[8];
        int count = mask_columns(table_record(t)[u], columns);
        add(",UNIQUE");
        add_columns(columns, count);
    }
    for (int k = key_count - 1; k >= 0; k--)
        if (key_record(k)[0] == t && !is_windowed(key_record(k))) add_foreign_key(key_record(k));
    add(")");
    execute(sql);
}

// The child columns of a foreign key as a mask.
static int child_mask(record key) {
    int mask = 0;
    for (int i = 0; i < key[5]; i++) mask |= 1 << key[6 + i];
    return mask;
}

// Whether the child key has an index: a unique key that begins with its columns, or an earlier key's.
static int is_indexed(int k) {
    record key = key_record(k);
    for (int u = 4; u < 8; u++) {
        uint8_t columns[8];
        int begin = 0, count = mask_columns(table_record(key[0])[u], columns);
        for (int i = 0; i < count && i < key[5]; i++) begin |= 1 << columns[i];
        if (begin == child_mask(key)) return 1;
    }
    for (int other = 0; other < k; other++)
        if (key_record(other)[0] == key[0] && child_mask(key_record(other)) == child_mask(key)) return 1;
    return 0;
}

static void create_indexes(void) {
    for (int k = 0; k < key_count; k++) {
        if (is_indexed(k)) continue;
        sql_start();
        add("CREATE INDEX i%d ON t%d", k, key_record(k)[0]);
        add_columns(key_record(k) + 6, key_record(k)[5]);
        execute(sql);
    }
}

// Columns of a windowed key: the last one of the child, the last one of the parent, and the one after it.
static int day_column(record key) { return key[6 + key[5] - 1]; }
static int first_column(record key) { return key[10 + key[5] - 1]; }
static int end_column(record key) { return first_column(key) + 1; }

// The triggers are right for such keys only.
static void require_plain_window(record key) {
    int parent = key[1], end = end_column(key);
    if (key[2] || parent >= table_count || end >= column_count(parent)) stop("windowed key deferred or broken");
    if (!is_not_null(parent, end)) stop("windowed key with NULL in its parent");
    if (is_folded(parent, first_column(key)) || is_folded(parent, end)) stop("windowed key with a folded day");
    for (int i = 0; i < key[5]; i++) {
        if (key[10 + i] == end) stop("windowed key broken");
        if (!is_not_null(parent, key[10 + i])) stop("windowed key with NULL in its parent");
    }
}

static void start_trigger(int k, int t, const char *event) {
    sql_start();
    add("CREATE TRIGGER w%d_t%d_%s AFTER %s ON t%d ", k, t, event, event, t);
}

static void end_trigger(void) {
    add("; END");
    execute(sql);
}

// 'cX=ROW.cY AND ..' for all pairs but the days: of the row sought its columns in the key at byte 6 or 10, those
// of the child or of the parent, and likewise of the row at hand.
static void add_others_equal(record key, int sought_at, const char *row, int row_at) {
    for (int i = 0; i < key[5] - 1; i++) add("c%d=%s.c%d AND ", key[sought_at + i], row, key[row_at + i]);
}

static void add_changed(int column) { add("NEW.c%d IS NOT OLD.c%d", column, column); }

// The windows of a parent share no day: a day is in the latest one that has begun by then, or in none.
static void add_orphan_check(record key) {
    int day = day_column(key), first = first_column(key);
    add(" BEGIN SELECT RAISE(ABORT,'orphan') WHERE IFNULL((SELECT c%d FROM t%d WHERE ", end_column(key), key[1]);
    add_others_equal(key, 10, "NEW", 6);
    add("c%d<=NEW.c%d ORDER BY c%d DESC LIMIT 1)<=NEW.c%d,1)", first, day, first, day);
}

static void add_child_filled(record key) {
    add("WHEN ");
    for (int i = 0; i < key[5]; i++) add("%sNEW.c%d IS NOT NULL", i ? " AND " : "", key[6 + i]);
}

static void add_child_changed(record key) {
    for (int i = 0; i < key[5]; i++) {
        add(i ? " OR " : " AND (");
        add_changed(key[6 + i]);
    }
    add(")");
}

static void create_child_triggers(int k) {
    record key = key_record(k);
    start_trigger(k, key[0], "INSERT");
    add_child_filled(key);
    add_orphan_check(key);
    end_trigger();
    start_trigger(k, key[0], "UPDATE");
    add_child_filled(key);
    add_child_changed(key);
    add_orphan_check(key);
    end_trigger();
}

// 24: the new window has no day, or shares one with the window before it or with the one after it.
static void add_window_check(record key) {
    int first = first_column(key), end = end_column(key);
    add("SELECT RAISE(ABORT,'window') WHERE NEW.c%d<=NEW.c%d", end, first);
    add(" OR (SELECT c%d FROM t%d WHERE ", end, key[1]);
    add_others_equal(key, 10, "NEW", 10);
    add("c%d<NEW.c%d ORDER BY c%d DESC LIMIT 1)>NEW.c%d", first, first, first, first);
    add(" OR (SELECT c%d FROM t%d WHERE ", first, key[1]);
    add_others_equal(key, 10, "NEW", 10);
    add("c%d>NEW.c%d ORDER BY c%d LIMIT 1)<NEW.c%d", first, first, first, end);
}

// The first half of 'a child row has a day of the old window that ..'; the days follow.
static void add_child_exists(record key) {
    add("EXISTS(SELECT 1 FROM t%d WHERE ", key[0]);
    add_others_equal(key, 6, "OLD", 10);
}

static void add_child_of_old(record key) {
    add_child_exists(key);
    add("c%d>=OLD.c%d AND c%d<OLD.c%d)", day_column(key), first_column(key), day_column(key), end_column(key));
}

// A child row of the old window is not in the new one. No other window has its day, so it is an orphan: NO ACTION
// refuses the same calls as RESTRICT. Only days that the window has lost are looked at.
static void add_left_out(record key) {
    int day = day_column(key), first = first_column(key), end = end_column(key);
    add("SELECT RAISE(ABORT,'left out') WHERE ");
    for (int i = 0; i < key[5] - 1; i++) {
        add_changed(key[10 + i]);
        add(" AND ");
        add_child_of_old(key);
        add(" OR ");
    }
    add("NEW.c%d>OLD.c%d AND ", first, first);
    add_child_exists(key);
    add("c%d>=OLD.c%d AND c%d<min(OLD.c%d,NEW.c%d)) OR ", day, first, day, end, first);
    add("NEW.c%d<OLD.c%d AND ", end, end);
    add_child_exists(key);
    add("c%d>=max(OLD.c%d,NEW.c%d) AND c%d<OLD.c%d)", day, first, end, day, end);
}

static void create_parent_triggers(int k) {
    record key = key_record(k);
    start_trigger(k, key[1], "INSERT");
    add("BEGIN ");
    add_window_check(key);
    end_trigger();
    start_trigger(k, key[1], "UPDATE");
    add("WHEN ");
    for (int i = 0; i < key[5]; i++) {
        add_changed(key[10 + i]);
        add(" OR ");
    }
    add_changed(end_column(key));
    add(" BEGIN ");
    add_window_check(key);
    add("; ");
    add_left_out(key);
    end_trigger();
    start_trigger(k, key[1], "DELETE");
    add("BEGIN SELECT RAISE(ABORT,'left out') WHERE ");
    add_child_of_old(key);
    end_trigger();
}

static void create_triggers(void) {
    for (int k = 0; k < key_count; k++) {
        if (!is_windowed(key_record(k))) continue;
        require_plain_window(key_record(k));
        create_child_triggers(k);
        create_parent_triggers(k);
    }
}

// An INSERT .. VALUES that an immediate key refuses leaves SQLite's count of deferred orphans raised if
// the table has a deferred key too; INSERT .. SELECT does not.
static int has_both_kinds(int t) {
    int immediate = 0, deferred = 0;
    for (int k = 0; k < key_count; k++) {
        if (key_record(k)[0] != t) continue;
        if (key_record(k)[2]) deferred = 1;
        else immediate = 1;
    }
    return immediate && deferred;
}

static void prepare_row_statements(int t) {
    int columns = column_count(t), select = has_both_kinds(t);
    sql_start();
    add("INSERT INTO t%d %s?1", t, select ? "SELECT " : "VALUES(");
    for (int c = 0; c < columns; c++) add(",?%d", c + 2);
    if (!select) add(")");
    row_statements[INSERT][t] = prepared_unless_broken();
    sql_start();
    add("UPDATE t%d SET ", t);
    for (int c = 0; c < columns; c++) add("%sc%d=?%d", c ? "," : "", c, c + 2);
    add(" WHERE r=?1");
    row_statements[UPDATE][t] = prepared_unless_broken();
    sql_start();
    add("DELETE FROM t%d WHERE r=?1", t);
    row_statements[DELETE][t] = prepared_unless_broken();
}

static sqlite3_stmt *prepare_plain(const char *format, int level) {
    sql_start();
    add(format, level);
    return prepared();
}

static void prepare_level_statements(void) {
    begin_statement = prepare_plain("BEGIN", 0);
    rollback_statement = prepare_plain("ROLLBACK", 0);
    commit_statement = prepare_plain("COMMIT", 0);
    for (int level = 1; level <= MOST_LEVELS; level++) {
        level_statements[SAVEPOINT][level] = prepare_plain("SAVEPOINT l%d", level);
        level_statements[RELEASE][level] = prepare_plain("RELEASE l%d", level);
        level_statements[ROLLBACK_TO][level] = prepare_plain("ROLLBACK TO l%d", level);
    }
}

// The part of well_formed for kinds 10 and 11.
static int where_well_formed(const int64_t *call) {
    int64_t t = call[1], sought = call[2], mask = call[3], set = call[5];
    int sets = call[0] == UPDATE_WHERE;
    if (t < 0 || t >= table_count) return 0;
    if (sought < 0 || sought >= column_count(t) || set < 0 || set >= column_count(t)) return 0;
    if (mask < 0 || mask > (sets ? SEEKS_NULL + SETS_NULL : SEEKS_NULL)) return 0;
    if ((mask & SEEKS_NULL && call[4]) || (mask & SETS_NULL && call[6])) return 0;
    for (int word = sets ? 7 : 5; word < 12; word++)
        if (call[word]) return 0;
    return 1;
}

// Whether each word is in its range and the unused ones are 0, as the paper's refusal 4 wants it.
static int well_formed(const int64_t *call) {
    int64_t kind = call[0], a = call[1], b = call[2], mask = call[3];
    int columns = 0;
    if (kind < INSERT || kind > UPDATE_WHERE) return 0;
    if (kind > COMMIT) return where_well_formed(call);
    if (kind <= DELETE) {
        if (a < 0 || a >= table_count || b < 0 || b >= row_count(a)) return 0;
        if (kind != DELETE) columns = column_count(a);
    } else if (b || (kind == RELEASE || kind == ROLLBACK_TO ? a < 1 || a > MOST_LEVELS : a != 0)) {
        return 0;
    }
    if (mask < 0 || mask >> columns) return 0;
    for (int c = 0; c < 8; c++)
        if (call[4 + c] && (c >= columns || mask >> c & 1)) return 0;
    return 1;
}

// Whether some index begins with a column: a unique key's, or one made for a child key.
static int begins_index(int t, int column) {
    for (int u = 4; u < 8; u++) {
        uint8_t columns[8];
        if (mask_columns(table_record(t)[u], columns) && columns[0] == column) return 1;
    }
    for (int k = 0; k < key_count; k++)
        if (key_record(k)[0] == t && key_record(k)[6] == column && !is_indexed(k)) return 1;
    return 0;
}

// An index on the column that a call of kind 10 or 11 seeks by.
static void index_sought(const int64_t *call) {
    int t = call[1], column = call[2];
    if (begins_index(t, column)) return;
    sql_start();
    add("CREATE INDEX IF NOT EXISTS s%dc%d ON t%d(c%d)", t, column, t, column);
    execute(sql);
}

// Where the prepared statement of a call of kind 10 or 11 is kept.
static sqlite3_stmt **where_statement(const int64_t *call) {
    return &where_statements[call[0] - DELETE_WHERE][call[3] & SEEKS_NULL][call[1]][call[2]][call[5]];
}

static void prepare_where(const int64_t *call) {
    sqlite3_stmt **statement = where_statement(call);
    int t = call[1], column = call[2], set_column = call[5];
    if (*statement) return;
    sql_start();
    if (call[0] == DELETE_WHERE) add("DELETE FROM t%d", t);
    else add("UPDATE t%d SET c%d=?2", t, set_column);
    add(" WHERE c%d%s", column, call[3] & SEEKS_NULL ? " IS NULL" : "=?1");
    *statement = prepared();
}

// Hands over every call of kind 10 or 11 that is well formed.
static void for_each_where(input book, void (*act)(const int64_t *call)) {
    for (size_t i = 0; i < book.call_count; i++) {
        int64_t call[12];
        memcpy(call, book.calls + CALL_BYTES * i, CALL_BYTES);
        if (call[0] > COMMIT && well_formed(call)) act(call);
    }
}

static void open_book(input book) {
    const uint8_t *schema = book.schema;
    table_count = field16(schema + 4), key_count = field16(schema + 6);
    table_records = schema + HEADER_BYTES, key_records = table_records + TABLE_BYTES * table_count;
    sqlite3_config(SQLITE_CONFIG_SINGLETHREAD);
    sqlite3_config(SQLITE_CONFIG_MEMSTATUS, 0);
    if (sqlite3_open(":memory:", &db) != SQLITE_OK) stop("open");
    execute("PRAGMA foreign_keys=ON; PRAGMA journal_mode=MEMORY; PRAGMA synchronous=OFF;"
            "PRAGMA temp_store=MEMORY; PRAGMA locking_mode=EXCLUSIVE; PRAGMA cache_size=-65536");
    for (int t = table_count - 1; t >= 0; t--) create_table(t);
    create_indexes();
    create_triggers();
    for_each_where(book, index_sought);
    for (int t = 0; t < table_count; t++) prepare_row_statements(t);
    for_each_where(book, prepare_where);
    prepare_level_statements();
}

static int run(sqlite3_stmt *statement) {
    int done = sqlite3_step(statement) == SQLITE_DONE;
    sqlite3_reset(statement);
    return done;
}

// The value stays where it is until the statement has run.
static void bind_value(sqlite3_stmt *statement, int place, int is_null, int folded, const int64_t *value) {
    if (is_null) sqlite3_bind_null(statement, place);
    else if (folded)
        sqlite3_bind_text(statement, place, (const char *)value, text_length(value), SQLITE_STATIC);
    else sqlite3_bind_int64(statement, place, *value);
}

// SQLite accepts an update or a delete of a row that is not there; here that is a refusal.
static int run_row_call(const int64_t *call) {
    sqlite3_stmt *statement = row_statements[call[0]][call[1]];
    if (!statement) return 0;
    sqlite3_bind_int64(statement, 1, call[2]);
    for (int c = 0; call[0] != DELETE && c < column_count(call[1]); c++)
        bind_value(statement, c + 2, call[3] >> c & 1, is_folded(call[1], c), call + 4 + c);
    return run(statement) && sqlite3_changes(db) == 1;
}

// Kinds 10 and 11: changing no row is no refusal.
static int run_where_call(const int64_t *call) {
    sqlite3_stmt *statement = *where_statement(call);
    if (!(call[3] & SEEKS_NULL)) bind_value(statement, 1, 0, is_folded(call[1], call[2]), call + 4);
    if (call[0] == UPDATE_WHERE)
        bind_value(statement, 2, call[3] & SETS_NULL, is_folded(call[1], call[5]), call + 6);
    return run(statement);
}

// SQLite has no limit of levels; a tenth one is refused here.
static int run_level_call(const int64_t *call) {
    int level = call[1], levels_after = 0;
    sqlite3_stmt *statement;
    switch (call[0]) {
    case BEGIN: statement = begin_statement, levels_after = 1; break;
    case SAVEPOINT:
        if (open_levels == MOST_LEVELS) return 0;
        levels_after = open_levels + 1, statement = level_statements[SAVEPOINT][levels_after];
        break;
    case RELEASE: statement = level_statements[RELEASE][level], levels_after = level - 1; break;
    case ROLLBACK_TO: statement = level_statements[ROLLBACK_TO][level], levels_after = level; break;
    case ROLLBACK: statement = rollback_statement; break;
    default: statement = commit_statement; break;
    }
    if (!run(statement)) return 0;
    open_levels = levels_after;
    return 1;
}

static int accepts(const uint8_t *bytes) {
    int64_t call[12];
    memcpy(call, bytes, CALL_BYTES);
    if (!well_formed(call)) return 0;
    if (call[0] <= DELETE) return run_row_call(call);
    return call[0] <= COMMIT ? run_level_call(call) : run_where_call(call);
}

static void print_answers(const int *changed, size_t count) {
    for (size_t i = 0; i < count; i++)
        if (changed[i] < 0) puts("refused,0");
        else printf("accepted,%d\n", changed[i]);
}

static void answer_calls(input book) {
    int *changed = malloc((book.call_count + 1) * sizeof *changed); // -1 where refused
    if (!changed) stop("no memory");
    double start = seconds_now();
    for (size_t i = 0; i < book.call_count; i++) {
        int before = sqlite3_total_changes(db);
        changed[i] = accepts(book.calls + CALL_BYTES * i) ? sqlite3_total_changes(db) - before : -1;
    }
    double seconds = seconds_now() - start;
    print_answers(changed, book.call_count);
    fprintf(stderr, "%.9f %s\n", seconds, sqlite3_libversion());
}

// SQLite counts a table's keys from the one declared last, which is the first of the schema.
static int64_t list_orphans(void) {
    int64_t count = 0;
    for (; sqlite3_step(check_statement) == SQLITE_ROW; count++) {
        orphans[count].row = sqlite3_column_int64(check_statement, 1);
        orphans[count].foreign_key = sqlite3_column_int64(check_statement, 3);
    }
    if (sqlite3_reset(check_statement) != SQLITE_OK) stop("check");
    return count;
}

static int64_t delete_bound(void) {
    if (sqlite3_step(bound_statement) != SQLITE_ROW) stop("bound");
    int64_t number = sqlite3_column_int64(bound_statement, 0);
    sqlite3_reset(bound_statement);
    return number;
}

// The columns of a table that SET NULL clears on delete, as a mask.
static int cleared_mask(int t) {
    int mask = 0;
    for (int k = 0; k < key_count; k++)
        if (key_record(k)[0] == t && key_record(k)[3] == SET_NULL) mask |= child_mask(key_record(k));
    return mask;
}

static void prepare_questions(void) {
    check_statement = prepare_plain("PRAGMA foreign_key_check", 0);
    sql_start();
    add("SELECT 0");
    for (int t = 0; t < table_count; t++) {
        uint8_t columns[8];
        int count = mask_columns(cleared_mask(t), columns);
        add("+(SELECT count(*)");
        for (int i = 0; i < count; i++) add("+count(c%d)", columns[i]);
        add(" FROM t%d)", t);
    }
    bound_statement = prepared();
}

int main(int argc, char **argv) {
    if (argc != 1 && argc != 3) stop("usage: sqlite_side [QUESTION TIMES] <input >answer");
    input book = read_input();
    open_book(book);
    if (argc == 1) {
        answer_calls(book);
    } else {
        carry_out_calls(book);
        prepare_questions();
        print_answer(argv[1], atoi(argv[2]));
    }
    return 0;
}
