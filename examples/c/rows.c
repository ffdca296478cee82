/* rows.c: the sample row of the scope document through the static library: uncut by one call, then cut at 4 by start, run, join and
 * report, with the steps of both; and one refusal. `examples/c/run.sh` builds and runs it. */
#include <stdio.h>
#include <stdlib.h>
#include <string.h>

#include "grugalash.h"

#define LENGTH(run) (sizeof(run) / sizeof((run)[0]))

/* Grammar K: terminals s 1, comma 2, "(" 3, ")" 4, count 5; nonterminals I 0 and L 1, both axioms. */
static const uint16_t words[] = {5, 2, 2, 5, 9, 11, 16, 21, 25, 0, 1, 0, 3, 256, 4, 5, 0, 3, 257, 4, 5, 1, 256, 2, 256, 1, 257, 2, 256};
static const char *const rules[] = {"I -> s", "I -> ( I ) count", "I -> ( L ) count", "L -> I , I", "L -> L , I"};

static const uint16_t row[] = {1, 2, 3, 1, 2, 1, 4, 5};

static uint8_t matrix[GRUGALASH_MATRIX_BYTES];
static uint16_t area[GRUGALASH_AREA_WORDS(LENGTH(row), 2)];

/* Here nothing may be refused; a viewer shows number and value. */
static void expect_done(const char *call, uint32_t number, const uint32_t *value) {
    if (number != GRUGALASH_DONE) {
        printf("%s: refused %u %u\n", call, (unsigned)number, (unsigned)*value);
        exit(1);
    }
}

/* The steps of a report, each with the tokens of the row that it covers. */
static void print_steps(const uint16_t *report, uint32_t entries) {
    for (uint32_t e = 0; e < entries; e++) {
        const uint16_t *entry = report + 3 * e;
        size_t first;
        size_t count = grugalash_entry_tokens(report, 3 * (size_t)entries, e, row, LENGTH(row), &first);
        printf("  step %u: %-16s places %u to %u, tokens", (unsigned)e + 1, rules[entry[0]], entry[1], entry[2]);
        for (size_t i = 0; i < count; i++) {
            printf(" %u", row[first + i]);
        }
        printf("\n");
    }
}

/* The row by one call. */
static uint32_t read_uncut(uint16_t *report, size_t room) {
    uint32_t entries, moves;
    uint32_t number = grugalash_parse(words, LENGTH(words), row, LENGTH(row), area, LENGTH(area), report, room, &entries, &moves);
    expect_done("parse", number, &entries);
    printf("uncut: %u steps, %u moves\n", (unsigned)entries, (unsigned)moves);
    print_steps(report, entries);
    return entries;
}

/* A chunk moved until it rests; a chunk with nothing to do is at rest already. */
static void run_to_rest(size_t chunk) {
    uint32_t made;
    uint32_t number = grugalash_run(words, LENGTH(words), matrix, sizeof matrix, area, LENGTH(area), chunk, UINT32_MAX, &made);
    if (number != GRUGALASH_AT_REST) {
        expect_done("run", number, &made);
        printf("  chunk %u made %u moves\n", (unsigned)chunk, (unsigned)made);
    }
}

/* The row cut at one place: both chunks to rest, then joined and moved to rest again. */
static uint32_t read_cut(uint16_t cut, uint16_t *report, size_t room) {
    uint32_t value, entries, moves;
    expect_done("load", grugalash_load(words, LENGTH(words), matrix, sizeof matrix, &value), &value);
    expect_done("start", grugalash_start(words, LENGTH(words), matrix, sizeof matrix, row, LENGTH(row), &cut, 1, area, LENGTH(area), &value), &value);
    printf("cut at %u:\n", cut);
    run_to_rest(1);
    run_to_rest(0);
    expect_done("join", grugalash_join(words, LENGTH(words), matrix, sizeof matrix, area, LENGTH(area), 0, &value), &value);
    printf("  joined\n");
    run_to_rest(0);
    uint32_t number = grugalash_report(words, LENGTH(words), matrix, sizeof matrix, area, LENGTH(area), report, room, &entries, &moves);
    expect_done("report", number, &entries);
    printf("cut at %u: %u steps, %u moves\n", cut, (unsigned)entries, (unsigned)moves);
    print_steps(report, entries);
    return entries;
}

/* A row that ends in a comma is no row: 18, no rule, at place 2. */
static void show_refusal(void) {
    static const uint16_t ends_in_comma[] = {1, 2};
    uint16_t report[GRUGALASH_REPORT_WORDS(LENGTH(ends_in_comma))];
    uint32_t value, moves;
    uint32_t number = grugalash_parse(words, LENGTH(words), ends_in_comma, LENGTH(ends_in_comma), area, LENGTH(area), report, LENGTH(report), &value, &moves);
    printf("the row 1 2: refused %u %u\n", (unsigned)number, (unsigned)value);
}

int main(void) {
    uint16_t uncut[GRUGALASH_REPORT_WORDS(LENGTH(row))], cut[GRUGALASH_REPORT_WORDS(LENGTH(row))];
    uint32_t a = read_uncut(uncut, LENGTH(uncut));
    uint32_t b = read_cut(4, cut, LENGTH(cut));
    bool same = a == b && memcmp(uncut, cut, 3 * a * sizeof *cut) == 0;
    printf("the same steps: %s\n", same ? "yes" : "no");
    show_refusal();
    return same ? 0 : 1;
}
