/* play.c: plays a row through the calls, as a schedule says, and prints what stands in the work area after each.
 *
 *     play table < TEXT     the table of the grammar
 *     play < TEXT           the row
 *
 * TEXT has four lines: grammar words, tokens, cuts, and the schedule: `step C`, `run C` (until it rests) or `join C`, parted by spaces. Of
 * each live chunk it prints its stack, a marked terminal with < before it, then a bar and its unread symbols: terminals as numbers, # as 0,
 * nonterminal k as Nk. The area is read by docs/AREA.md. `examples/c/play.sh` builds it. */
#include <stdio.h>
#include <stdlib.h>
#include <string.h>

#include "grugalash.h"

#define MOST_WORDS 2564
#define MOST_TOKENS 1024
#define MOST_CUTS 64

struct run {
    uint16_t at[MOST_WORDS];
    size_t length;
};

static struct run words, tokens, cuts;
static uint8_t matrix[GRUGALASH_MATRIX_BYTES];
static uint16_t area[GRUGALASH_AREA_WORDS(MOST_TOKENS, MOST_CUTS)], report[GRUGALASH_REPORT_WORDS(MOST_TOKENS)];

/* The numbers of the next line of standard input, no more than `most`. */
static void read_numbers(struct run *run, size_t most) {
    static char line[8 * MOST_WORDS];
    char *at = line, *end;
    if (fgets(line, sizeof line, stdin) == NULL) {
        printf("a line is missing\n");
        exit(2);
    }
    for (run->length = 0; run->length < most; at = end) {
        unsigned long number = strtoul(at, &end, 10);
        if (end == at) {
            return;
        }
        run->at[run->length++] = (uint16_t)number;
    }
}

static void refused(const char *call, uint32_t number, uint32_t value) {
    printf("%s: refused %u %u\n", call, (unsigned)number, (unsigned)value);
}

static void print_table(void) {
    for (unsigned a = 0; a <= words.at[0]; a++) {
        for (unsigned b = 0; b <= words.at[0]; b++) {
            printf("%s%c", b == 0 ? "" : " ", ".<=>"[matrix[64 * a + b]]);
        }
        printf("\n");
    }
}

/* The symbols on the slots from `from` up to `to`. */
static void print_symbols(unsigned from, unsigned to) {
    const uint16_t *slots = area + 5 + 5 * area[1];
    for (unsigned slot = from; slot < to; slot += slots[4 * slot + 2]) {
        const uint16_t *symbol = slots + 4 * slot;
        printf(" %s", symbol[1] ? "<" : "");
        if (symbol[0] >= 256) {
            printf("N%u", symbol[0] - 256u);
        } else {
            printf("%u", symbol[0]);
        }
    }
}

static void print_state(void) {
    for (unsigned c = 0; c < area[1]; c++) {
        const uint16_t *chunk = area + 5 + 5 * c;
        if (chunk[0] == 0) {
            continue;
        }
        printf("  chunk %u:", c);
        print_symbols(chunk[1], chunk[2]);
        printf(" |");
        print_symbols(chunk[2], chunk[3]);
        if (chunk[0] >= 17) {
            printf("  stuck with %u at %u", chunk[0], chunk[2] - 1u);
        }
        printf("\n");
    }
}

/* One call of the schedule; false where the name is none. */
static bool play(const char *call, size_t chunk) {
    uint32_t value = 0, number;
    uint16_t *w = words.at;
    if (strcmp(call, "step") == 0) {
        number = grugalash_step(w, words.length, matrix, sizeof matrix, area, sizeof area / 2, chunk, &value);
    } else if (strcmp(call, "run") == 0) {
        number = grugalash_run(w, words.length, matrix, sizeof matrix, area, sizeof area / 2, chunk, UINT32_MAX, &value);
    } else if (strcmp(call, "join") == 0) {
        number = grugalash_join(w, words.length, matrix, sizeof matrix, area, sizeof area / 2, chunk, &value);
    } else {
        return false;
    }
    printf("%s %zu\n", call, chunk);
    if (number != 0) {
        refused(call, number, value);
    } else {
        print_state();
    }
    return true;
}

/* The report, as the program `rows` writes it. */
static void print_report(void) {
    uint32_t entries, moves;
    uint32_t number = grugalash_report(words.at, words.length, matrix, sizeof matrix, area, sizeof area / 2, report, sizeof report / 2, &entries, &moves);
    if (number != 0) {
        printf("refused %u %u\n", (unsigned)number, (unsigned)entries);
        return;
    }
    printf("parse %zu %zu %u\n", tokens.length, cuts.length + 1, (unsigned)moves);
    for (uint32_t e = 0; e < entries; e++) {
        printf("%u %u %u\n", report[3 * e], report[3 * e + 1], report[3 * e + 2]);
    }
}

int main(int argc, char **argv) {
    uint32_t value;
    read_numbers(&words, MOST_WORDS);
    read_numbers(&tokens, MOST_TOKENS);
    read_numbers(&cuts, MOST_CUTS);
    uint32_t number = grugalash_load(words.at, words.length, matrix, sizeof matrix, &value);
    if (number != 0) {
        refused("load", number, value);
        return 1;
    }
    if (argc > 1 && strcmp(argv[1], "table") == 0) {
        print_table();
        return 0;
    }
    number = grugalash_start(words.at, words.length, matrix, sizeof matrix, tokens.at, tokens.length, cuts.at, cuts.length, area, sizeof area / 2, &value);
    if (number != 0) {
        refused("start", number, value);
        return 1;
    }
    printf("start\n");
    print_state();
    char call[8];
    size_t chunk;
    while (scanf("%7s %zu", call, &chunk) == 2 && play(call, chunk)) {
    }
    print_report();
    return 0;
}
