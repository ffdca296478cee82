/* others.h: the two parsers that the library is timed against. Each reads a row front to back and writes the same report: for each
 * reduction rule, first place, place after the last. Each answers 0, or a refusal's number; `out` has room for three words a token. */
#ifndef OTHERS_H
#define OTHERS_H

#include <stddef.h>
#include <stdint.h>

/* handwritten.c: an operator precedence parser for any grammar, over the matrix that the library's load wrote. It gives the library's
 * numbers 9 and 17 to 19, and the place. */
uint32_t handwritten_parse(const uint16_t *words, size_t words_length, const uint8_t *matrix, const uint16_t *tokens, size_t count,
                           uint16_t *out, uint32_t *entries);

/* k.y: Bison's parser of grammar K. It gives 1 for a row that it refuses. */
uint32_t bison_parse(const uint16_t *tokens, size_t count, uint16_t *out, uint32_t *entries);

#endif
