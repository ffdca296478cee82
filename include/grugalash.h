/* grugalash.h: the calls of Grugalash for C.
 *
 * Grugalash reads rows of knitting patterns by an operator precedence grammar and reports the steps that build a row. Link
 * libgrugalash.a, for x86-64 Linux: `rt lib` in crates/grugalash_c builds it, and build_library of examples/library.sh copies it to
 * target/staticlib/. It has no state, allocates nothing, reads and writes only what it is lent, and always ends. What each call answers
 * and leaves is proved for every input that keeps the terms below.
 *
 * Terms
 * - A run is an address and the number of its elements. The address is not null and is aligned for its type, also where the number is 0.
 * - A run or a number that a call writes overlaps nothing else that the call is lent.
 * - No other thread touches what is lent until the call returns.
 * - The stack has room for 256 kB: a report that must be sorted has its scratch words there, and a parse its matrix.
 *
 * Answers
 * A call answers a number: 0 on success, else the number of a refusal (GRUGALASH_HEAD .. below). Where it has a `value`, it writes the
 * refusal's value there: 0 on success, except where the comment says what success writes. A refused call leaves every lent run as it was, with
 * the one exception that grugalash_parse names.
 *
 * Words of a grammar: T, N, A, R; then for each of the R rules the word place at which its body starts; then the bodies: the left side's
 * number, then the right side, a terminal as its number 1..T, nonterminal k as 256 + k.
 */
#ifndef GRUGALASH_H
#define GRUGALASH_H

#include <stdbool.h>
#include <stddef.h>
#include <stdint.h>

#ifdef __cplusplus
extern "C" {
#endif

/* The refusals: when each is given, and its value. */
enum {
    GRUGALASH_DONE = 0,
    GRUGALASH_HEAD = 1,            /* one of the first 4 words is absent or outside its limits; the first such word */
    GRUGALASH_CONTENTS = 2,        /* a rule's start is absent or wrong, or the last body is not 2 to 9 words; the first such entry, R for the last body */
    GRUGALASH_SYMBOL = 3,          /* a body word is no nonterminal (left) or no symbol; the first such word place */
    GRUGALASH_FORM = 4,            /* a right side has two adjacent nonterminals, or no terminal; the first such rule */
    GRUGALASH_TWIN = 5,            /* an earlier rule has the same right side; the least rule for which this holds */
    GRUGALASH_CONFLICT = 6,        /* a pair of terminals has two relations; the least 64a + b */
    GRUGALASH_EMPTY = 7,           /* no tokens; 0 */
    GRUGALASH_TOO_LONG = 8,        /* more than 16,384 tokens; 0 */
    GRUGALASH_BAD_TOKEN = 9,       /* a token outside 1..T; the first such place */
    GRUGALASH_BAD_CUT = 10,        /* more than 63 cuts, or a cut below its predecessor or above the number of tokens; 63, else the first bad cut's index */
    GRUGALASH_NO_ROOM = 11,        /* the run to be written is too short; the words or bytes needed */
    GRUGALASH_NO_CHUNK = 12,       /* the chunk's number is not live; 0 */
    GRUGALASH_AT_REST = 13,        /* a move or run of a chunk at rest; 0 */
    GRUGALASH_NO_JOIN = 14,        /* no live chunk to the right, or either not at rest; 0 */
    GRUGALASH_BAD_STATE = 15,      /* grammar, matrix or work area breaks a shape rule of docs/AREA.md; 0 */
    GRUGALASH_UNFINISHED = 16,     /* several chunks live, or the one not at rest; 0 */
    GRUGALASH_NO_RELATION = 17,    /* the finished row is stuck: no relation between two neighbours; the place */
    GRUGALASH_NO_RULE = 18,        /* the finished row is stuck: no rule has the handle as its right side; the place */
    GRUGALASH_NOT_AXIOM = 19,      /* the finished row is stuck: what is left is no axiom; the place */
    GRUGALASH_SIDE_BY_SIDE = 20,   /* the finished row is stuck: two nonterminals side by side; the place */
    GRUGALASH_NO_NONTERMINAL = 21  /* a set asked for number N or above; 0 */
};

/* Sizes. A matrix takes 4,096 bytes: the relation of terminals a and b at 64a + b, as 0 blank, 1 yields, 2 equal, 3 takes. A work area
 * for n tokens in c chunks (one chunk more than cuts) takes so many 16-bit words. A report takes at most three words for each token. */
#define GRUGALASH_MATRIX_BYTES 4096
#define GRUGALASH_AREA_WORDS(n, c) (7 * (size_t)(n) + 5 * (size_t)(c) + 13)
#define GRUGALASH_REPORT_WORDS(n) (3 * (size_t)(n))

/* Checks of the grammar words alone: 1 to 3. Writes only *value. */
uint32_t grugalash_check_symbols(const uint16_t *words, size_t words_length, uint32_t *value);

/* Checks of the grammar words alone: 1 to 5. Writes only *value. */
uint32_t grugalash_check_words(const uint16_t *words, size_t words_length, uint32_t *value);

/* Loads a grammar: checks 1 to 6, each over the whole grammar, then 11. On success the first 4,096 bytes of `matrix` are the grammar's
 * matrix; bytes beyond are untouched. */
uint32_t grugalash_load(const uint16_t *words, size_t words_length, uint8_t *matrix, size_t matrix_length, uint32_t *value);

/* The left or the right set of a nonterminal: checks 1 to 5, then 21. On success *mask has bit t set for each terminal t of the set, and
 * *size is how many there are; on a refusal *mask is the refusal's value, and *size is 0. */
uint32_t grugalash_left_set(const uint16_t *words, size_t words_length, uint32_t nonterminal, uint64_t *mask, uint32_t *size);
uint32_t grugalash_right_set(const uint16_t *words, size_t words_length, uint32_t nonterminal, uint64_t *mask, uint32_t *size);

/* Whether grammar, matrix and work area keep every shape rule of docs/AREA.md: a call on an area gives 15 exactly when they do not.
 * Writes nothing. */
bool grugalash_in_shape(const uint16_t *words, size_t words_length, const uint8_t *matrix, size_t matrix_length,
                        const uint16_t *area, size_t area_length);

/* Starts a row, cut before the places in `cuts` (none: one chunk): checks 15 (grammar and matrix), 7, 8, 9, 10, 11. On success the first
 * GRUGALASH_AREA_WORDS(tokens, cuts + 1) words of `area` are those of the row's start, whatever stood there; words beyond are untouched. */
uint32_t grugalash_start(const uint16_t *words, size_t words_length, const uint8_t *matrix, size_t matrix_length,
                         const uint16_t *tokens, size_t tokens_length, const uint16_t *cuts, size_t cuts_length,
                         uint16_t *area, size_t area_length, uint32_t *value);

/* One move of a chunk: checks 15, 12, 13. On success `area` has the words of the state after that move. Getting stuck is a move, and no refusal. */
uint32_t grugalash_step(const uint16_t *words, size_t words_length, const uint8_t *matrix, size_t matrix_length,
                        uint16_t *area, size_t area_length, size_t chunk, uint32_t *value);

/* Moves of a chunk until `budget` are made or it rests: checks 15, 12, 13. On success *value is how many were made, and `area` has the
 * words of the state after them. */
uint32_t grugalash_run(const uint16_t *words, size_t words_length, const uint8_t *matrix, size_t matrix_length,
                       uint16_t *area, size_t area_length, size_t chunk, uint32_t budget, uint32_t *value);

/* Joins a chunk to the next live one, both at rest: checks 15, 12, 14. On success `area` has the words of the joined state; the other's
 * number is gone. */
uint32_t grugalash_join(const uint16_t *words, size_t words_length, const uint8_t *matrix, size_t matrix_length,
                        uint16_t *area, size_t area_length, size_t chunk, uint32_t *value);

/* The report of a finished row: checks 15, 16, 17 to 20, 11. On success the entries stand in order at the front of `out`, three words
 * each: rule, first place, place after the last; words beyond are untouched; *entries is how many there are, and *moves the moves
 * since start, joins included. On a refusal *entries is the refusal's value, and *moves is 0. The area is only read. */
uint32_t grugalash_report(const uint16_t *words, size_t words_length, const uint8_t *matrix, size_t matrix_length,
                          const uint16_t *area, size_t area_length, uint16_t *out, size_t out_length,
                          uint32_t *entries, uint32_t *moves);

/* The front-to-back parse of a row in one call: checks 1 to 9 by number, then 11 for the work area, then 17 to 20, then 11 for the report.
 * Once it has passed 11 for the work area, the first GRUGALASH_AREA_WORDS(tokens, 1) words of `area` are zero when it ends, accepted or
 * refused; words beyond are untouched. `out`, *entries and *moves are as grugalash_report leaves them. */
uint32_t grugalash_parse(const uint16_t *words, size_t words_length, const uint16_t *tokens, size_t tokens_length,
                         uint16_t *area, size_t area_length, uint16_t *out, size_t out_length,
                         uint32_t *entries, uint32_t *moves);

/* The tokens of one report entry: they start at tokens[*first], and the answer is how many there are. If the entry is not wholly in the
 * report run, its second word exceeds its third, or its third exceeds the number of tokens, *first is 0 and the answer is 0. Writes only *first. */
size_t grugalash_entry_tokens(const uint16_t *report, size_t report_length, size_t entry,
                              const uint16_t *tokens, size_t tokens_length, size_t *first);

#ifdef __cplusplus
}
#endif

#endif
