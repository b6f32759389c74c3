/* A kit that links the engine: horses, their trims and their readings, tied by two foreign keys. The file is
 * C11 and C++17.
 *
 * Table 0, horses: number. Table 1, trims: number, horse. Table 2, readings: number, horse. Deleting a horse
 * deletes its trims and readings. These may be entered before their horse: the keys are deferred, so each must
 * have one when the transaction is committed.
 *
 * A second book is half drawn: its readings name a sensor, and there is no table of sensors yet. Horses and trims
 * can be entered meanwhile, readings cannot.
 *
 * In a third book horses have names in place of numbers, and capitals do not count in them: the column is folded.
 *
 * A fourth book has other tables. Table 0, calibrations: sensor, first day, end. Table 1, readings: sensor, day.
 * The key is windowed: a reading belongs to the calibration in force on its day, and on the end it is so no more. */
#include "hoofbook.h"

#include <inttypes.h>
#include <stdio.h>
#include <stdlib.h>

enum { HORSES, TRIMS, READINGS, TABLES, SENSORS = TABLES }; /* the sensors are not drawn */
enum { CALIBRATIONS, DAY_READINGS, WINDOW_TABLES };
enum { HORSE_ROWS = 4, TRIM_ROWS = 8, READING_ROWS = 8, MOST_ORPHANS = TRIM_ROWS + READING_ROWS };
enum { CALIBRATION_ROWS = 4 };
enum { HEADER = 16, TABLE = 80, KEY = 16, KEYS = 2, WINDOW_KEYS = 1, JOURNAL = 8 };
enum { MOST_SCHEMA = HEADER + TABLES * TABLE + KEYS * KEY };
enum { HORSE = 1 }; /* the column of trims and readings that names their horse, or the readings' sensor */
enum { DEFERRED = 1, CASCADE = 4 };
enum { NUMBER = 1, SENSOR_AND_DAY = 3 }; /* masks: column 0; columns 0 and 1 */
enum { FOLDED_AT = 9, PLAIN = 0, FOLDED = 1 }; /* byte 9 of the horses' record: column 0 is plain or folded */
enum { Ada = 0x616441, ADA = 0x414441, ada = 0x616461, Ida = 0x616449 }; /* the lowest byte is the first letter */

static void put16(uint8_t *at, unsigned value)
{
    at[0] = (uint8_t)(value & 255);
    at[1] = (uint8_t)(value >> 8);
}

/* A table whose columns of the mask are NOT NULL and together a unique key. */
static void put_table(uint8_t *at, unsigned rows, unsigned columns, unsigned unique)
{
    put16(at, rows);
    at[2] = (uint8_t)columns;
    at[3] = (uint8_t)unique;
    at[4] = (uint8_t)unique;
}

/* The tables of a key, and bytes 6 to 13 for a key that has no column yet. */
static void put_ends(uint8_t *at, unsigned child, unsigned parent)
{
    at[0] = (uint8_t)child;
    at[1] = (uint8_t)parent;
    for (int i = 6; i < 14; i++)
        at[i] = 255;
}

/* Column 1 of the child table refers to column 0 of the parent table. Byte 14, the match, stays 0; 1 is MATCH
 * FULL, which asks no more of a key of one column. */
static void put_key(uint8_t *at, unsigned child, unsigned parent)
{
    put_ends(at, child, parent);
    at[2] = DEFERRED;
    at[3] = CASCADE;
    at[4] = CASCADE;
    at[5] = 1;
    at[6] = HORSE;
    at[10] = 0;
}

/* Columns 0 and 1 of the child table are sensor and day; those of the parent table sensor and first day, and its
 * column 2, which the key does not name, is the end. Byte 15 says that the key is windowed. */
static void put_windowed_key(uint8_t *at, unsigned child, unsigned parent)
{
    put_ends(at, child, parent);
    at[5] = 2;
    for (int i = 0; i < 2; i++) {
        at[6 + i] = (uint8_t)i;
        at[10 + i] = (uint8_t)i;
    }
    at[15] = 1;
}

/* A kit's book: its schema, and the area that it lends to the engine. */
struct book {
    uint8_t schema[MOST_SCHEMA];
    size_t schema_len;
    int64_t *area;
    size_t words;
};

/* The header of so many tables and keys; answers where the keys begin. */
static uint8_t *put_header(struct book *book, unsigned tables, unsigned keys)
{
    const unsigned keys_at = HEADER + tables * TABLE, length = keys_at + keys * KEY;
    const unsigned fields[] = {tables, keys, HEADER, keys_at, JOURNAL, length};
    book->schema[0] = 0x46;
    book->schema[1] = 0x4B;
    book->schema[2] = 0x42;
    book->schema[3] = 0x31;
    for (int i = 0; i < 6; i++)
        put16(book->schema + 4 + 2 * i, fields[i]);
    book->schema_len = length;
    return book->schema + keys_at;
}

/* A reading names a row of the table given; the column of the horses is folded or plain. */
static void draw_horses(struct book *book, unsigned parent_of_readings, unsigned folded)
{
    uint8_t *tables = book->schema + HEADER, *keys = put_header(book, TABLES, KEYS);
    put_table(tables + HORSES * TABLE, HORSE_ROWS, 1, NUMBER);
    tables[HORSES * TABLE + FOLDED_AT] = (uint8_t)folded;
    put_table(tables + TRIMS * TABLE, TRIM_ROWS, 2, NUMBER);
    put_table(tables + READINGS * TABLE, READING_ROWS, 2, NUMBER);
    put_key(keys, TRIMS, HORSES);
    put_key(keys + KEY, READINGS, parent_of_readings);
}

/* A sensor has one reading on a day. */
static void draw_calibrations(struct book *book)
{
    uint8_t *tables = book->schema + HEADER, *keys = put_header(book, WINDOW_TABLES, WINDOW_KEYS);
    put_table(tables + CALIBRATIONS * TABLE, CALIBRATION_ROWS, 3, SENSOR_AND_DAY);
    put_table(tables + DAY_READINGS * TABLE, READING_ROWS, 2, SENSOR_AND_DAY);
    put_windowed_key(keys, DAY_READINGS, CALIBRATIONS);
}

/* A call, and what it says. */
struct step {
    const char *what;
    int64_t words[12];
};

/* Trims and a reading come before their horse 8, and not in the order of their rows. */
static const struct step entries[] = {
    {"begin", {HOOFBOOK_BEGIN}},
    {"insert horse 7", {HOOFBOOK_INSERT, HORSES, 0, 0, 7}},
    {"insert reading 1 of horse 8 in row 0", {HOOFBOOK_INSERT, READINGS, 0, 0, 1, 8}},
    {"insert trim 1 of horse 8 in row 2", {HOOFBOOK_INSERT, TRIMS, 2, 0, 1, 8}},
    {"insert trim 2 of horse 7 in row 1", {HOOFBOOK_INSERT, TRIMS, 1, 0, 2, 7}},
    {"insert trim 3 of horse 8 in row 0", {HOOFBOOK_INSERT, TRIMS, 0, 0, 3, 8}},
    {"insert reading 2 of horse 7 in row 1", {HOOFBOOK_INSERT, READINGS, 1, 0, 2, 7}},
    {"insert reading 3 of horse 7 in row 2", {HOOFBOOK_INSERT, READINGS, 2, 0, 3, 7}},
};

/* Horse 8 comes, and the commit is accepted. The sensor that sent the readings of horse 7 was on horse 8. */
static const struct step closing[] = {
    {"commit", {HOOFBOOK_COMMIT}},
    {"insert horse 8", {HOOFBOOK_INSERT, HORSES, 1, 0, 8}},
    {"commit", {HOOFBOOK_COMMIT}},
    {"move the readings of horse 7 to horse 8", {HOOFBOOK_UPDATE_WHERE, READINGS, HORSE, 0, 7, HORSE, 8}},
};

/* What one of these changes at most is asked before. */
static const struct step deletions[] = {
    {"delete the trims of horse 8", {HOOFBOOK_DELETE_WHERE, TRIMS, HORSE, 0, 8}},
    {"delete horse 7 and its trims", {HOOFBOOK_DELETE, HORSES, 0}},
};

/* The key of the readings is broken, which holds up no other table. */
static const struct step half_drawn[] = {
    {"insert horse 7", {HOOFBOOK_INSERT, HORSES, 0, 0, 7}},
    {"insert trim 1 of horse 7", {HOOFBOOK_INSERT, TRIMS, 0, 0, 1, 7}},
    {"insert reading 1 of sensor 5", {HOOFBOOK_INSERT, READINGS, 0, 0, 1, 5}},
    {"delete horse 7 and its trim", {HOOFBOOK_DELETE, HORSES, 0}},
};

/* A new spelling of the horse's name changes its own row alone; its trim follows a new name. */
static const struct step names[] = {
    {"insert horse Ada", {HOOFBOOK_INSERT, HORSES, 0, 0, Ada}},
    {"insert trim 1 of horse ADA", {HOOFBOOK_INSERT, TRIMS, 0, 0, 1, ADA}},
    {"insert a second horse ada", {HOOFBOOK_INSERT, HORSES, 1, 0, ada}},
    {"respell horse Ada as ada", {HOOFBOOK_UPDATE, HORSES, 0, 0, ada}},
    {"rename horse ada to Ida", {HOOFBOOK_UPDATE, HORSES, 0, 0, Ida}},
};

/* The second calibration may begin on the day that is the first one's end, and takes the reading of that day. */
static const struct step windows[] = {
    {"insert calibration of sensor 5 from day 10, end 20", {HOOFBOOK_INSERT, CALIBRATIONS, 0, 0, 5, 10, 20}},
    {"insert reading of sensor 5 on day 19", {HOOFBOOK_INSERT, DAY_READINGS, 0, 0, 5, 19}},
    {"insert reading of sensor 5 on day 20", {HOOFBOOK_INSERT, DAY_READINGS, 1, 0, 5, 20}},
    {"insert calibration of sensor 5 from day 19, end 30", {HOOFBOOK_INSERT, CALIBRATIONS, 1, 0, 5, 19, 30}},
    {"insert calibration of sensor 5 from day 20, end 30", {HOOFBOOK_INSERT, CALIBRATIONS, 1, 0, 5, 20, 30}},
    {"insert reading of sensor 5 on day 20", {HOOFBOOK_INSERT, DAY_READINGS, 1, 0, 5, 20}},
    {"move the first end to 19", {HOOFBOOK_UPDATE, CALIBRATIONS, 0, 0, 5, 10, 19}},
    {"delete the second calibration", {HOOFBOOK_DELETE, CALIBRATIONS, 1}},
};

static void carry_out(struct book *book, const struct step *steps, size_t count)
{
    for (const struct step *step = steps; step < steps + count; step++) {
        const hoofbook_answer answer =
            hoofbook_call(book->schema, book->schema_len, book->area, book->words, step->words, 12);
        printf("%s: %" PRId64 ",%" PRId64 ",%" PRId64 "\n", step->what, answer.code, answer.changed, answer.net);
    }
}

/* By foreign key, then by row, whenever they were entered. */
static void list_orphans(const struct book *book)
{
    hoofbook_orphan list[MOST_ORPHANS];
    const hoofbook_listed listed =
        hoofbook_list_orphans(book->schema, book->schema_len, book->area, book->words, list, MOST_ORPHANS);
    printf("orphans: %" PRId64 ",%" PRId64 "\n", listed.code, listed.count);
    for (int64_t i = 0; i < listed.count; i++)
        printf("  key %" PRIu64 ", row %" PRIu64 "\n", list[i].foreign_key, list[i].row);
}

/* No key has SET NULL, so this is the number of live rows. The journal has as many records: outside a transaction
 * no delete is refused by 15. */
static void ask_bound(const struct book *book)
{
    const hoofbook_number bound =
        hoofbook_delete_bound(book->schema, book->schema_len, book->area, book->words);
    printf("most rows that a delete changes: %" PRId64 ",%" PRId64 "\n", bound.code, bound.number);
}

/* Gives a drawn book a fresh area. */
static void open_book(struct book *book)
{
    book->words = (size_t)hoofbook_area_words(book->schema, book->schema_len);
    book->area = (int64_t *)calloc(book->words + 1, sizeof *book->area);
    if (book->area == NULL ||
        hoofbook_make_fresh(book->schema, book->schema_len, book->area, book->words) != HOOFBOOK_DONE) {
        fprintf(stderr, "kit: no area\n");
        exit(1);
    }
}

/* A book of horses, opened. */
static struct book horse_book(unsigned parent_of_readings, unsigned folded)
{
    struct book book = {{0}, 0, NULL, 0};
    draw_horses(&book, parent_of_readings, folded);
    open_book(&book);
    return book;
}

/* A book of calibrations, opened. */
static struct book calibration_book(void)
{
    struct book book = {{0}, 0, NULL, 0};
    draw_calibrations(&book);
    open_book(&book);
    return book;
}

int main(void)
{
    struct book book = horse_book(HORSES, PLAIN);
    carry_out(&book, entries, sizeof entries / sizeof *entries);
    list_orphans(&book);
    carry_out(&book, closing, sizeof closing / sizeof *closing);
    ask_bound(&book);
    carry_out(&book, deletions, sizeof deletions / sizeof *deletions);
    free(book.area);
    book = horse_book(SENSORS, PLAIN);
    printf("half-drawn schema: %" PRId64 "\n", hoofbook_check_schema(book.schema, book.schema_len));
    carry_out(&book, half_drawn, sizeof half_drawn / sizeof *half_drawn);
    free(book.area);
    book = horse_book(HORSES, FOLDED);
    carry_out(&book, names, sizeof names / sizeof *names);
    free(book.area);
    book = calibration_book();
    carry_out(&book, windows, sizeof windows / sizeof *windows);
    free(book.area);
    return 0;
}
