/* handwritten.c: an operator precedence parser as one writes it in C: a stack of symbols with their first places, a mark where a handle
 * starts, and a search of the rules for the handle's right side. It is trusted with its grammar and its matrix, and its stack is its own. */
#include "others.h"

#define MOST_TOKENS 16384

enum { YIELDS = 1, EQUAL = 2, TAKES = 3 };

struct entry {
    uint16_t symbol, marked, first;
};

static struct entry stack[MOST_TOKENS + 2];

/* The least rule whose right side is the symbols from `handle` on; R if there is none. */
static uint32_t match(const uint16_t *words, size_t words_length, const struct entry *handle, size_t length) {
    uint32_t rules = words[3];
    for (uint32_t r = 0; r < rules; r++) {
        size_t body = words[4 + r], end = r + 1 < rules ? words[5 + r] : words_length;
        if (end - body - 1 != length) {
            continue;
        }
        size_t i = 0;
        while (i < length && words[body + 1 + i] == handle[i].symbol) {
            i++;
        }
        if (i == length) {
            return r;
        }
    }
    return rules;
}

uint32_t handwritten_parse(const uint16_t *words, size_t words_length, const uint8_t *matrix, const uint16_t *tokens, size_t count,
                           uint16_t *out, uint32_t *entries) {
    size_t top = 0, terminal = 0, next = 0;
    uint32_t made = 0;
    *entries = 0;
    if (count == 0 || count > MOST_TOKENS) {
        return count == 0 ? 7 : 8;
    }
    for (size_t i = 0; i < count; i++) {
        if (tokens[i] < 1 || tokens[i] > words[0]) {
            *entries = (uint32_t)i;
            return 9;
        }
    }
    stack[0] = (struct entry){0, 0, 0};
    for (;;) {
        uint16_t b = next < count ? tokens[next] : 0;
        switch (matrix[64 * stack[terminal].symbol + b]) {
        case YIELDS:
            stack[++top] = (struct entry){b, 1, (uint16_t)next++};
            terminal = top;
            break;
        case EQUAL:
            if (b == 0) {
                if (top == 1 && stack[1].symbol >= 256 && stack[1].symbol < 256 + words[2]) {
                    *entries = made;
                    return 0;
                }
                *entries = (uint32_t)next;
                return 19;
            }
            stack[++top] = (struct entry){b, 0, (uint16_t)next++};
            terminal = top;
            break;
        case TAKES: {
            size_t from = terminal;
            while (!stack[from].marked) {
                from--;
            }
            if (stack[from - 1].symbol >= 256) {
                from--;
            }
            uint32_t rule = match(words, words_length, stack + from, top + 1 - from);
            if (rule == words[3]) {
                *entries = (uint32_t)next;
                return 18;
            }
            out[3 * made] = (uint16_t)rule;
            out[3 * made + 1] = stack[from].first;
            out[3 * made + 2] = (uint16_t)next;
            made++;
            stack[from].symbol = (uint16_t)(256 + words[words[4 + rule]]);
            stack[from].marked = 0;
            top = from;
            terminal = from - 1;
            break;
        }
        default:
            *entries = (uint32_t)next;
            return 17;
        }
    }
}
