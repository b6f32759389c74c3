/* Answers a question about a book.
 *
 *   hoofask QUESTION <INPUT
 *
 * The input is hoofrun's: a schema, then calls of 96 bytes, words little-endian. The calls are carried out on a
 * fresh area of any length, and their answers are not printed. The first line of the answer is its code and its
 * number. Where the schema is refused, these are the refusal's code and 0, and no call is carried out. */
#include "hoofbook.h"

#include <inttypes.h>
#include <stdio.h>
#include <stdlib.h>
#include <string.h>

enum { HEADER = 16, TABLE = 80, KEY = 16, MOST_SCHEMA = 65535 };
enum { TABLES_FIELD = 4, KEYS_FIELD = 6, LENGTH_FIELD = 14 };
enum { WORD = 8, CALL = 12 };

/* A book: its schema, and the area that it lends to the engine. */
struct book {
    uint8_t schema[MOST_SCHEMA];
    size_t schema_len;
    int64_t *area;
    size_t words;
};

static void stop(const char *why)
{
    fprintf(stderr, "hoofask: %s\n", why);
    exit(1);
}

/* Room for so many elements, all zero; for none it is no null pointer. */
static void *room_for(size_t count, size_t size)
{
    void *room = calloc(count + 1, size);
    if (room == NULL)
        stop("no memory");
    return room;
}

static unsigned half_at(const uint8_t *at)
{
    return at[0] | (unsigned)at[1] << 8;
}

static int64_t word_at(const uint8_t *at)
{
    uint64_t word = 0;
    for (int i = WORD - 1; i >= 0; i--)
        word = word << 8 | at[i];
    return (int64_t)word;
}

/* As many bytes as the whole-length field says, or all there are if fewer. */
static void read_schema(struct book *book)
{
    book->schema_len = fread(book->schema, 1, HEADER, stdin);
    if (book->schema_len < HEADER)
        return;
    const size_t length = half_at(book->schema + LENGTH_FIELD);
    if (length <= HEADER)
        book->schema_len = length;
    else
        book->schema_len += fread(book->schema + HEADER, 1, length - HEADER, stdin);
}

/* A short last call has as many words as are whole, so the engine refuses it. */
static void carry_out_calls(struct book *book)
{
    uint8_t bytes[WORD * CALL];
    size_t read;
    while ((read = fread(bytes, 1, sizeof bytes, stdin)) > 0) {
        int64_t call[CALL];
        const size_t words = read / WORD;
        for (size_t i = 0; i < words; i++)
            call[i] = word_at(bytes + WORD * i);
        hoofbook_call(book->schema, book->schema_len, book->area, book->words, call, words);
    }
}

/* Reads the book and carries its calls out; answers the code of making its area fresh. */
static int64_t read_book(struct book *book)
{
    read_schema(book);
    book->words = (size_t)hoofbook_area_words(book->schema, book->schema_len);
    book->area = room_for(book->words, sizeof *book->area);
    const int64_t code = hoofbook_make_fresh(book->schema, book->schema_len, book->area, book->words);
    if (code == HOOFBOOK_DONE)
        carry_out_calls(book);
    if (ferror(stdin))
        stop("the input cannot be read");
    return code;
}

/* Every row of each foreign key's child table, in an accepted schema. */
static size_t most_orphans(const uint8_t *schema)
{
    const uint8_t *tables = schema + HEADER;
    const uint8_t *keys = tables + TABLE * half_at(schema + TABLES_FIELD);
    const unsigned key_count = half_at(schema + KEYS_FIELD);
    size_t rows = 0;
    for (unsigned k = 0; k < key_count; k++)
        rows += half_at(tables + TABLE * keys[KEY * k]);
    return rows;
}

/* Code and number of orphans, then a line 'foreign_key,row' for each record of the list. */
static void print_orphans(const struct book *book)
{
    const size_t room = most_orphans(book->schema);
    hoofbook_orphan *list = room_for(room, sizeof *list);
    const hoofbook_listed listed =
        hoofbook_list_orphans(book->schema, book->schema_len, book->area, book->words, list, room);
    printf("%" PRId64 ",%" PRId64 "\n", listed.code, listed.count);
    for (int64_t i = 0; i < listed.count; i++)
        printf("%" PRIu64 ",%" PRIu64 "\n", list[i].foreign_key, list[i].row);
    free(list);
}

/* Code and number. */
static void print_bound(const struct book *book)
{
    const hoofbook_number bound =
        hoofbook_delete_bound(book->schema, book->schema_len, book->area, book->words);
    printf("%" PRId64 ",%" PRId64 "\n", bound.code, bound.number);
}

/* A question: its name, what is printed, and who prints it for a book whose schema is accepted. */
struct question {
    const char *name;
    const char *what;
    void (*print)(const struct book *book);
};

static const struct question questions[] = {
    {"orphans", "all orphans after the last call, by foreign key and then by row", print_orphans},
    {"bound", "how much one delete can touch after the last call", print_bound},
};
enum { QUESTIONS = sizeof questions / sizeof *questions };

static const struct question *question_named(const char *name)
{
    for (int i = 0; i < QUESTIONS; i++)
        if (strcmp(questions[i].name, name) == 0)
            return &questions[i];
    return NULL;
}

static void print_usage(void)
{
    fprintf(stderr, "usage: hoofask QUESTION <INPUT\n");
    for (int i = 0; i < QUESTIONS; i++)
        fprintf(stderr, "  %-10s%s\n", questions[i].name, questions[i].what);
}

int main(int argc, char **argv)
{
    static struct book book;
    const struct question *question = argc == 2 ? question_named(argv[1]) : NULL;
    if (question == NULL) {
        print_usage();
        return 2;
    }
    const int64_t code = read_book(&book);
    if (code == HOOFBOOK_DONE)
        question->print(&book);
    else
        printf("%" PRId64 ",0\n", code);
    free(book.area);
    if (fflush(stdout) != 0 || ferror(stdout))
        stop("the answer cannot be written");
    return 0;
}
