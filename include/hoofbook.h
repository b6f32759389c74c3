/* The hoof book: the record engine of a gait kit for farriers.
 *
 * Every function takes any bytes, any area of any length and any call of any length: what it is
 * handed is carried out or refused by one of the codes below. Pointers must be valid for the given
 * number of elements (a pointer with length 0 is not read), and an area or a list must not overlap
 * another argument. */
#ifndef HOOFBOOK_H
#define HOOFBOOK_H

#include <stddef.h>
#include <stdint.h>

#ifdef __cplusplus
extern "C" {
#endif

/* Codes. Nothing is written by 1, 3, 4, 10 to 13, 21 and 22. A call refused by 14 to 20, 23 or 24 has all its rows
 * put back, and every journal word past the records in use is zero. A row change is judged by 14, 15, 23, 16, 17
 * and 24, in this order; a deletion passes the last three. */
enum hoofbook_code {
    HOOFBOOK_DONE = 0,                 /* carried out */
    HOOFBOOK_SCHEMA_MALFORMED = 1,     /* the schema bytes break a rule */
    HOOFBOOK_WRONG_LENGTH = 3,         /* the area has not the length that the schema needs */
    HOOFBOOK_BAD_CALL = 4,             /* not twelve words, or a word out of its range */
    HOOFBOOK_DAMAGED = 10,             /* the area's header, levels or journal are at odds */
    HOOFBOOK_ROW_STATE = 11,           /* insert on a live row; update or delete (kinds 2 and 3) on a vacant one */
    HOOFBOOK_LEVEL_STATE = 12,         /* no such transaction or level is open, or begin inside one */
    HOOFBOOK_LEVELS_FULL = 13,         /* savepoint with nine levels open */
    HOOFBOOK_TOO_DEEP = 14,            /* referential actions reached depth 17 */
    HOOFBOOK_JOURNAL_FULL = 15,        /* no journal record is left for the next row change */
    HOOFBOOK_NOT_NULL = 16,            /* NULL in a NOT NULL column */
    HOOFBOOK_NOT_UNIQUE = 17,          /* another live row has the same unique key */
    HOOFBOOK_RESTRICTED = 18,          /* RESTRICT: a child row has the key */
    HOOFBOOK_KEPT_OUT_OF_RANGE = 19,   /* a kept number of orphans would leave its range (damaged areas) */
    HOOFBOOK_ORPHANS_LEFT = 20,        /* after the last row orphans are left: of an immediate key, or
                                        * outside a transaction of any key */
    HOOFBOOK_COMMIT_WITH_ORPHANS = 21, /* commit while a foreign key has orphans */
    HOOFBOOK_LIST_TOO_SHORT = 22,      /* the list has less records than there are orphans */
    HOOFBOOK_BROKEN_KEY = 23,          /* the row change uses a broken foreign key */
    HOOFBOOK_BAD_WINDOW = 24           /* the window of a written row has no day, or shares one with another */
};

/* Kinds of calls. A call is twelve words: 0 the kind, 1 a, 2 b, 3 the NULL mask, 4 to 11 the values.
 * Tables, rows and columns are counted from 0, levels from 1. Words that a kind does not use are 0, and so is
 * a value in whose place the mask says NULL. */
enum hoofbook_kind {
    HOOFBOOK_INSERT = 1,        /* table a, row b; word 4 + i is column i, bit i of the mask makes it NULL */
    HOOFBOOK_UPDATE = 2,        /* likewise; every column is given */
    HOOFBOOK_DELETE = 3,        /* table a, row b */
    HOOFBOOK_BEGIN = 4,         /* opens a transaction */
    HOOFBOOK_SAVEPOINT = 5,     /* opens the next level, or a transaction if none is open */
    HOOFBOOK_RELEASE = 6,       /* closes level a and those above it; level 1, opened by savepoint: commits */
    HOOFBOOK_ROLLBACK_TO = 7,   /* undoes what came after level a opened; it stays open, those above close */
    HOOFBOOK_ROLLBACK = 8,      /* undoes the transaction */
    HOOFBOOK_COMMIT = 9,        /* ends the transaction */
    HOOFBOOK_DELETE_WHERE = 10, /* deletes every row of table a whose column b equals word 4; with bit 0 of
                                 * the mask, every row whose column b is NULL */
    HOOFBOOK_UPDATE_WHERE = 11  /* of every such row sets column word 5 to word 6, with bit 1 of the mask to
                                 * NULL */
};

/* The answer to a call: code, rows changed, and the net change in all kept orphans. Refused: code, 0, 0. */
typedef struct {
    int64_t code;
    int64_t changed;
    int64_t net;
} hoofbook_answer;

/* The answer of the orphan list: code, and how many orphans there are. Refused: code, 0. */
typedef struct {
    int64_t code;
    int64_t count;
} hoofbook_listed;

/* The answer to a question about an area: code, and the number asked for. Refused: code, 0. */
typedef struct {
    int64_t code;
    int64_t number;
} hoofbook_number;

/* An orphan: a row of the foreign key's child table that has no NULL in its key and no parent row; where the key
 * is windowed, none in whose window its day is. Under MATCH FULL also a row with some but not all key columns
 * NULL, which no parent row mends. A broken foreign key has no orphans. */
typedef struct {
    uint64_t foreign_key;
    uint64_t row;
} hoofbook_orphan;

/* 0 where the schema is accepted, else 1. It may be half drawn: a foreign key is broken if the parent table or a
 * parent column is not there, or if the parent columns are not exactly those of a unique key. A row change that
 * inserts or updates a row of its child table, or updates or deletes a row of its parent table, uses it and is
 * refused by 23; deleting a child row and inserting a parent row do not use it. Its actions never run.
 *
 * Byte 9 of a table record is the mask of its folded columns, for names that differ in capitals. The bytes of such a
 * value are the name's characters, the first the lowest: "Lf2" is 0x32664C. Two values of a folded column are equal
 * if their eight bytes are equal once 41 to 5A (hexadecimal) are raised by 20. Unique keys and kinds 10 and 11 go by
 * the column's own mark, a foreign key by those of its parent columns. Values are stored as they are given.
 *
 * Byte 14 of a foreign key record is the match: 0, or 1 for MATCH FULL. Byte 15 is 0, or 1 for a windowed key,
 * which has two columns or more, and of the actions NO ACTION or RESTRICT. Its last child column is a day, its last
 * parent column the first day of a window. The parent's next column is the window's end, the day after its last; where
 * there is no such column, or it is in the key, the key is broken. A child row belongs to a parent row if the other
 * columns are equal and first day <= day < end, as signed numbers, folded or not. A parent row with NULL in the key or
 * in the end has no window. 24 refuses a row written with end <= first day, or with a window that shares a day with
 * that of another row equal in the other columns. A new end counts as a new key. RESTRICT refuses to update a parent
 * row where a child row of the old window is not in the new one. */
int64_t hoofbook_check_schema(const uint8_t *schema, size_t schema_len);

/* The length in words of an area for the schema; 0 where the schema is refused. */
int64_t hoofbook_area_words(const uint8_t *schema, size_t schema_len);

/* Makes the area fresh; answers the code: 0, 1 or 3. */
int64_t hoofbook_make_fresh(const uint8_t *schema, size_t schema_len, int64_t *area, size_t area_len);

/* Carries out a call of twelve words, of one of the eleven kinds, or refuses it. Kinds 10 and 11 go by rising
 * row number and judge each row at its turn, by 14 to 18, 23 and 24; 20 is judged once, after the last row. One
 * refused row refuses the whole call; finding no row is no cause to refuse.
 *
 * Tables that foreign keys join, directly or through others, are a family; a broken key joins none. In an area made
 * fresh and since written by calls alone, two calls of kinds 1, 2, 3, 10 or 11 on different families that are accepted
 * one after the other in one open transaction are accepted in the other order too, with the same answers, rows and
 * kept numbers; only the journal records may stand otherwise. An accepted rollback to a level opened before both gives
 * the same area, and whatever calls follow both get the same answers. */
hoofbook_answer hoofbook_call(const uint8_t *schema, size_t schema_len, int64_t *area, size_t area_len,
                              const int64_t *call, size_t call_len);

/* Lists all orphans, by foreign key number, then by rising child row. Each stands once: a row without a
 * parent under two foreign keys is an orphan of each. Records past them keep what they held. Refused by 1,
 * 3, 10 or 22, judged in this order, with nothing written. A record for every row of each foreign key's child
 * table is always enough. */
hoofbook_listed hoofbook_list_orphans(const uint8_t *schema, size_t schema_len, const int64_t *area,
                                      size_t area_len, hoofbook_orphan *list, size_t list_len);

/* How much one delete can touch: the sum, over all live rows, of 1 plus the row's columns that are not NULL and are
 * child columns of a foreign key with SET NULL on delete, each column once. Where every on-delete action is NO ACTION,
 * RESTRICT, SET NULL or CASCADE, and no such child column belongs to a parent key or a window, an accepted delete
 * (kind 3 or 10) changes at most so many rows, and with so many journal records free a delete is never refused by 15.
 * For other schemas it is a sum and no more. Refused by 1, 3 or 10, judged in this order; nothing is written. */
hoofbook_number hoofbook_delete_bound(const uint8_t *schema, size_t schema_len, const int64_t *area, size_t area_len);

#ifdef __cplusplus
}
#endif

#endif
