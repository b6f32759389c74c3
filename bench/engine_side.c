// The orphan list of a hoofrun input's book, or the bound of a delete, by the engine's library.
//
//   engine_side orphans TIMES <input >answer
//   engine_side bound TIMES <input >answer
//
// The calls are carried out, then the question is asked TIMES times. The first line is the seconds of the
// fastest answer, in which nothing else is; then comes a line 'KEY,ROW' for each orphan as it is listed, or
// one line with the bound.
#include "side.h"

static input book;
static int64_t *area;
static size_t area_length;

static void stop(const char *where) {
    fprintf(stderr, "engine_side: %s\n", where);
    exit(2);
}

static void open_book(void) {
    area_length = hoofbook_area_words(book.schema, book.schema_length);
    area = malloc(area_length * sizeof *area);
    if (!area) stop("no memory");
    int64_t code = hoofbook_make_fresh(book.schema, book.schema_length, area, area_length);
    if (code != HOOFBOOK_DONE) stop("schema refused");
}

static int accepts(const uint8_t *bytes) {
    int64_t call[12];
    memcpy(call, bytes, CALL_BYTES);
    return hoofbook_call(book.schema, book.schema_length, area, area_length, call, 12).code == HOOFBOOK_DONE;
}

static int64_t list_orphans(void) {
    hoofbook_listed listed =
        hoofbook_list_orphans(book.schema, book.schema_length, area, area_length, orphans, MOST_ORPHANS);
    if (listed.code != HOOFBOOK_DONE) stop("list refused");
    return listed.count;
}

static int64_t delete_bound(void) {
    hoofbook_number bound = hoofbook_delete_bound(book.schema, book.schema_length, area, area_length);
    if (bound.code != HOOFBOOK_DONE) stop("bound refused");
    return bound.number;
}

int main(int argc, char **argv) {
    if (argc != 3) stop("usage: engine_side QUESTION TIMES <input >answer");
    book = read_input();
    open_book();
    carry_out_calls(book);
    print_answer(argv[1], atoi(argv[2]));
    return 0;
}
