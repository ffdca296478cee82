/* bench.c: times the library's calls, a hand-written operator precedence parser and Bison's parser on the same rows of grammar K, after it
 * has seen that all of them give the same report. `bench/run.sh` builds and runs it. Times are the best of many runs, in nanoseconds a token.
 *
 * A row in chunks goes through start, a run of each chunk, a join of chunk 0 rightwards and a run after each join, and report. Every call
 * but start checks the whole lent area first. The cost of that check is timed apart, as a run of a chunk at rest, in the state in which the
 * call finds the area; "less checks" is the time of the calls less the checks that they make. */
#define _POSIX_C_SOURCE 200809L
#include <stdio.h>
#include <stdlib.h>
#include <string.h>
#include <time.h>

#include "grugalash.h"
#include "others.h"

#define LENGTH(run) (sizeof(run) / sizeof((run)[0]))
#define MOST_TOKENS 16384
#define MOST_CHUNKS 64
#define MOST_CALLS (3 * MOST_CHUNKS + 2)
#define SHORT_ROWS 2000

static const uint16_t words[] = {5, 2, 2, 5, 9, 11, 16, 21, 25, 0, 1, 0, 3, 256, 4, 5, 0, 3, 257, 4, 5, 1, 256, 2, 256, 1, 257, 2, 256};
enum { STITCH = 1, COMMA = 2, OPEN = 3, CLOSE = 4, COUNT = 5 };

static const uint16_t short_rows[][8] = {
    {1, 2, 3, 1, 2, 1, 4, 5}, {3, 1, 2, 1, 4, 5, 2, 1}, {3, 1, 4, 5, 2, 1, 2, 1}, {1, 2, 1, 2, 3, 1, 4, 5}};

static uint8_t matrix[GRUGALASH_MATRIX_BYTES];
static uint16_t tokens[MOST_TOKENS], area[GRUGALASH_AREA_WORDS(MOST_TOKENS, MOST_CHUNKS)];
static uint16_t report[GRUGALASH_REPORT_WORDS(MOST_TOKENS)], other_report[GRUGALASH_REPORT_WORDS(MOST_TOKENS)];
static size_t count, area_words;

static double now(void) {
    struct timespec t;
    clock_gettime(CLOCK_MONOTONIC, &t);
    return 1e9 * (double)t.tv_sec + (double)t.tv_nsec;
}

static void fail(const char *what) {
    printf("FAILED: %s\n", what);
    exit(1);
}

/* ---- the rows */

static void comma_list(void) {
    count = 0;
    tokens[count++] = STITCH;
    while (count < 16383) {
        tokens[count++] = COMMA;
        tokens[count++] = STITCH;
    }
}

static void nested(void) {
    count = 0;
    for (int i = 0; i < 5461; i++) {
        tokens[count++] = OPEN;
    }
    tokens[count++] = STITCH;
    for (int i = 0; i < 5461; i++) {
        tokens[count++] = CLOSE;
        tokens[count++] = COUNT;
    }
}

/* items and brackets as a fixed sequence of numbers has them, up to 40 deep, to about 16,000 tokens */
static void mixed(void) {
    uint32_t seed = 1;
    int depth = 0;
    count = 0;
    for (;;) {
        seed = seed * 1664525 + 1013904223;
        if (depth < 40 && (seed >> 28) < 5) {
            tokens[count++] = OPEN;
            depth++;
            continue;
        }
        tokens[count++] = STITCH;
        while (depth > 0 && (count > 15900 || (seed >> 20) % 16 < 5)) {
            tokens[count++] = CLOSE;
            tokens[count++] = COUNT;
            depth--;
            seed = seed * 1664525 + 1013904223;
        }
        if (count > 15900) {
            return;
        }
        tokens[count++] = COMMA;
    }
}

/* ---- the readers: each reads the row, leaves a report and answers how many entries it has */

static uint32_t by_parse(void) {
    uint32_t entries, moves;
    if (grugalash_parse(words, LENGTH(words), tokens, count, area, LENGTH(area), report, LENGTH(report), &entries, &moves) != 0) {
        fail("parse refused the row");
    }
    return entries;
}

static uint32_t by_hand(void) {
    uint32_t entries;
    if (handwritten_parse(words, LENGTH(words), matrix, tokens, count, other_report, &entries) != 0) {
        fail("the hand-written parser refused the row");
    }
    return entries;
}

static uint32_t by_bison(void) {
    uint32_t entries;
    if (bison_parse(tokens, count, other_report, &entries) != 0) {
        fail("Bison's parser refused the row");
    }
    return entries;
}

typedef uint32_t (*reader)(void);

/* The best time of each reader; they take turns, so that what else the machine does falls on all alike. */
static void best_of(int repeats, size_t readers, const reader *each, double *times) {
    for (size_t r = 0; r < readers; r++) {
        times[r] = 1e300;
    }
    for (int i = 0; i < repeats; i++) {
        for (size_t r = 0; r < readers; r++) {
            double start = now();
            each[r]();
            double took = now() - start;
            times[r] = took < times[r] ? took : times[r];
        }
    }
}

/* ---- a row in chunks: the best time of each call of the schedule, and of a check in the state that each finds */

static struct schedule {
    double call[MOST_CALLS], check[MOST_CALLS];
    int calls;
} best;

static double began;

static void begin_call(void) {
    began = now();
}

static void end_call(void) {
    double took = now() - began;
    best.call[best.calls] = took < best.call[best.calls] ? took : best.call[best.calls];
    best.calls++;
}

/* Times a check, by a chunk that is at rest: the one that the next call makes. */
static void time_check(size_t at_rest) {
    uint32_t value;
    double start = now();
    if (grugalash_run(words, LENGTH(words), matrix, sizeof matrix, area, area_words, at_rest, 1, &value) != GRUGALASH_AT_REST) {
        fail("a chunk at rest was moved");
    }
    double took = now() - start;
    best.check[best.calls] = took < best.check[best.calls] ? took : best.check[best.calls];
}

static void run_chunk(size_t chunk) {
    uint32_t made;
    begin_call();
    uint32_t number = grugalash_run(words, LENGTH(words), matrix, sizeof matrix, area, area_words, chunk, UINT32_MAX, &made);
    end_call();
    if (number != 0 && number != GRUGALASH_AT_REST) {
        fail("run refused");
    }
}

/* One pass through the schedule; answers how many entries the report has. */
static uint32_t by_chunks(size_t chunks) {
    uint16_t cuts[MOST_CHUNKS] = {0};
    uint32_t value, entries, moves;
    best.calls = 0;
    for (size_t c = 1; c < chunks; c++) {
        cuts[c - 1] = (uint16_t)(count * c / chunks);
    }
    begin_call();
    if (grugalash_start(words, LENGTH(words), matrix, sizeof matrix, tokens, count, cuts, chunks - 1, area, area_words, &value) != 0) {
        fail("start refused");
    }
    end_call();
    for (size_t c = 0; c < chunks; c++) {
        if (c > 0) {
            time_check(c - 1);
        }
        run_chunk(c);
    }
    for (size_t c = 1; c < chunks; c++) {
        time_check(0);
        begin_call();
        if (grugalash_join(words, LENGTH(words), matrix, sizeof matrix, area, area_words, 0, &value) != 0) {
            fail("join refused");
        }
        end_call();
        if (c + 1 < chunks) {
            time_check(c + 1);
        }
        run_chunk(0);
    }
    time_check(0);
    begin_call();
    if (grugalash_report(words, LENGTH(words), matrix, sizeof matrix, area, area_words, report, LENGTH(report), &entries, &moves) != 0) {
        fail("report refused");
    }
    end_call();
    return entries;
}

struct times {
    double all, checks, worst_check;
    int checked;
};

static struct times best_in_chunks(int repeats, size_t chunks) {
    area_words = GRUGALASH_AREA_WORDS(count, chunks);
    for (int i = 0; i < MOST_CALLS; i++) {
        best.call[i] = best.check[i] = 1e300;
    }
    for (int i = 0; i < repeats; i++) {
        by_chunks(chunks);
    }
    struct times t = {0, 0, 0, best.calls - 1};
    for (int i = 0; i < best.calls; i++) {
        t.all += best.call[i];
        if (i > 0) {
            /* where no chunk was at rest before the call: the check in the state after it */
            double check = best.check[i] < 1e300 ? best.check[i] : best.check[i + 1];
            t.checks += check;
            t.worst_check = check > t.worst_check ? check : t.worst_check;
        }
    }
    return t;
}

/* ---- what is compared and printed */

static void same_reports(void) {
    uint32_t entries = by_parse();
    if (by_hand() != entries || memcmp(report, other_report, 6 * (size_t)entries) != 0) {
        fail("the hand-written parser gives another report");
    }
    if (by_bison() != entries || memcmp(report, other_report, 6 * (size_t)entries) != 0) {
        fail("Bison's parser gives another report");
    }
    for (size_t chunks = 1; chunks <= 64; chunks *= 2) {
        memset(report, 0xff, sizeof report);
        area_words = GRUGALASH_AREA_WORDS(count, chunks);
        if (by_chunks(chunks) != entries || memcmp(report, other_report, 6 * (size_t)entries) != 0) {
            fail("the row in chunks gives another report");
        }
    }
    printf("  %zu tokens, %u steps; reports of parse, of 1 to 64 chunks, of the hand-written parser and of Bison's are the same\n", count, (unsigned)entries);
}

static const char *met(bool goal) {
    return goal ? "met" : "MISSED";
}

static void long_row(const char *name, void (*row)(void), int repeats) {
    static const size_t cuttings[] = {1, 2, 8, 64};
    row();
    printf("%s\n", name);
    same_reports();
    double n = (double)count;
    static const reader readers[] = {by_parse, by_hand, by_bison};
    double times[LENGTH(readers)];
    best_of(repeats, LENGTH(readers), readers, times);
    double parse = times[0], hand = times[1], bison = times[2];
    printf("  parse %.2f ns a token; hand-written %.2f (parse is %.2f times that: %s); Bison %.2f (parse is %.2f times that: %s)\n", parse / n,
           hand / n, parse / hand, met(parse <= hand), bison / n, parse / bison, met(parse < bison));
    for (size_t i = 0; i < LENGTH(cuttings); i++) {
        struct times t = best_in_chunks(repeats / 5 + 1, cuttings[i]);
        double words_checked = (double)GRUGALASH_AREA_WORDS(count, cuttings[i]), check = t.checks / t.checked, less = t.all - t.checks;
        printf("  %2zu chunks %.2f ns a token; less %d checks %.2f, %.2f times parse%s; one check %.1f us, %.2f ns a word, %.2f at most: %s\n",
               cuttings[i], t.all / n, t.checked, less / n, less / parse, cuttings[i] < 64 ? "" : less <= 2 * parse ? ": met" : ": MISSED",
               check / 1000, check / words_checked, t.worst_check / words_checked, met(t.worst_check < words_checked));
    }
}

/* The short rows: start, run and report with the matrix loaded once; parse, which loads its own; the two others. */
static void take_short_row(int i) {
    memcpy(tokens, short_rows[i % LENGTH(short_rows)], sizeof short_rows[0]);
    count = 8;
}

static uint32_t short_calls(void) {
    static const uint16_t no_cuts[1];
    uint32_t value, entries = 0, moves;
    for (int i = 0; i < SHORT_ROWS; i++) {
        take_short_row(i);
        if (grugalash_start(words, LENGTH(words), matrix, sizeof matrix, tokens, count, no_cuts, 0, area, area_words, &value) != 0
            || grugalash_run(words, LENGTH(words), matrix, sizeof matrix, area, area_words, 0, UINT32_MAX, &value) != 0
            || grugalash_report(words, LENGTH(words), matrix, sizeof matrix, area, area_words, report, LENGTH(report), &entries, &moves) != 0) {
            fail("a short row was refused");
        }
    }
    return entries;
}

static uint32_t short_rows_by(reader read) {
    uint32_t entries = 0;
    for (int i = 0; i < SHORT_ROWS; i++) {
        take_short_row(i);
        entries = read();
    }
    return entries;
}

static uint32_t short_parse(void) {
    return short_rows_by(by_parse);
}

static uint32_t short_hand(void) {
    return short_rows_by(by_hand);
}

static uint32_t short_bison(void) {
    return short_rows_by(by_bison);
}

static uint32_t loads(void) {
    uint32_t value;
    for (int i = 0; i < SHORT_ROWS; i++) {
        if (grugalash_load(words, LENGTH(words), matrix, sizeof matrix, &value) != 0) {
            fail("load refused");
        }
    }
    return 0;
}

static void short_row_times(int repeats) {
    double n = 8.0 * SHORT_ROWS;
    printf("%d rows of 8 tokens\n", SHORT_ROWS);
    for (int i = 0; i < (int)LENGTH(short_rows); i++) {
        take_short_row(i);
        same_reports();
    }
    area_words = GRUGALASH_AREA_WORDS(8, 1);
    static const reader readers[] = {short_calls, short_hand, short_bison, short_parse, loads};
    double times[LENGTH(readers)];
    best_of(repeats / 10 + 1, LENGTH(readers), readers, times);
    double calls = times[0], hand = times[1], bison = times[2], parse = times[3], load = times[4];
    printf("  start, run, report %.1f ns a token (%.2f us a row); hand-written %.1f; Bison %.1f\n", calls / n, calls / SHORT_ROWS / 1000, hand / n, bison / n);
    printf("  parse, which loads its own matrix, %.1f ns a token (%.2f us a row, of which load %.2f)\n", parse / n, parse / SHORT_ROWS / 1000,
           load / SHORT_ROWS / 1000);
    take_short_row(0);
    struct times t = best_in_chunks(1000, 1);
    printf("  one check of such a row: %.2f us, with 4,096 bytes of the matrix and %zu words of the area\n", t.checks / t.checked / 1000, area_words);
}

/* `bench read ROW READER TIMES`: a row read so many times, and nothing timed, for bench/count.sh, which counts instructions. READER is 0 for
 * parse, 1 for the hand-written parser and 2 for Bison's; ROW is 0, 1 or 2, in the order below. */
static void only_read(int row, int which, int times) {
    static void (*const rows[])(void) = {comma_list, nested, mixed};
    static const reader readers[] = {by_parse, by_hand, by_bison};
    rows[row]();
    for (int i = 0; i < times; i++) {
        readers[which]();
    }
    printf("%zu\n", count);
}

int main(int argc, char **argv) {
    int repeats = argc == 2 ? atoi(argv[1]) : 500;
    uint32_t value;
    if (grugalash_load(words, LENGTH(words), matrix, sizeof matrix, &value) != 0) {
        fail("load refused grammar K");
    }
    if (argc == 5) {
        only_read(atoi(argv[2]), atoi(argv[3]), atoi(argv[4]));
        return 0;
    }
    long_row("a comma list", comma_list, repeats);
    long_row("brackets nested 5,461 deep", nested, repeats);
    long_row("a mixed row", mixed, repeats);
    short_row_times(repeats);
    return 0;
}
