// What SQLite's side and the engine's side have in common: the input, the clock and the questions.
// It is included first, by programs of one file.
#ifndef SIDE_H
#define SIDE_H

#define _POSIX_C_SOURCE 200809L
#include "hoofbook.h"

#include <inttypes.h>
#include <stdio.h>
#include <stdlib.h>
#include <string.h>
#include <time.h>

enum { CALL_BYTES = 96, HEADER_BYTES = 16, MOST_ORPHANS = 32 * 1024 };

// What hoofrun reads: a schema, then calls.
typedef struct {
    const uint8_t *schema;
    size_t schema_length;
    const uint8_t *calls;
    size_t call_count;
} input;

// As long as a list can be.
static hoofbook_orphan orphans[MOST_ORPHANS];

// What each side has of its own: its last message; whether it accepts a call, which it carries out; and its
// answers to questions: its list of orphans, whose length it answers, and the bound of a delete.
static void stop(const char *where);
static int accepts(const uint8_t *call);
static int64_t list_orphans(void);
static int64_t delete_bound(void);

static int field16(const uint8_t *bytes) { return bytes[0] | bytes[1] << 8; }

static input read_input(void) {
    size_t room = 1 << 20, length = 0, got;
    uint8_t *bytes = malloc(room);
    while (bytes && (got = fread(bytes + length, 1, room - length, stdin)) > 0)
        if ((length += got) == room) bytes = realloc(bytes, room *= 2);
    if (!bytes) stop("no memory");
    if (length < HEADER_BYTES || length < (size_t)field16(bytes + 14)) stop("short input");
    size_t schema_length = field16(bytes + 14);
    return (input){bytes, schema_length, bytes + schema_length, (length - schema_length) / CALL_BYTES};
}

static double seconds_now(void) {
    struct timespec now;
    clock_gettime(CLOCK_MONOTONIC, &now);
    return now.tv_sec + now.tv_nsec * 1e-9;
}

static void carry_out_calls(input book) {
    for (size_t i = 0; i < book.call_count; i++)
        if (!accepts(book.calls + CALL_BYTES * i)) stop("call refused");
}

// Asks so many times; answers the number, and the seconds of the fastest answer.
static int64_t fastest_answer(int64_t (*ask)(void), int times, double *fastest) {
    int64_t number = 0;
    for (int i = 0; i < times; i++) {
        double start = seconds_now();
        number = ask();
        double seconds = seconds_now() - start;
        if (i == 0 || seconds < *fastest) *fastest = seconds;
    }
    return number;
}

static void print_orphans(int64_t count) {
    for (int64_t i = 0; i < count; i++)
        printf("%" PRIu64 ",%" PRIu64 "\n", orphans[i].foreign_key, orphans[i].row);
}

// The seconds of the fastest of so many answers; then a line for each orphan, or one with the bound.
static void print_answer(const char *question, int times) {
    int lists = strcmp(question, "orphans") == 0;
    if (!lists && strcmp(question, "bound") != 0) stop("the question is 'orphans' or 'bound'");
    double seconds = 0;
    int64_t number = fastest_answer(lists ? list_orphans : delete_bound, times, &seconds);
    printf("%.9f\n", seconds);
    if (lists) print_orphans(number);
    else printf("%" PRId64 "\n", number);
}

#endif
