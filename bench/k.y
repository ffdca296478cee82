/* k.y: grammar K for Bison, recording each reduction by a rule of K as the library reports it: rule, first place, place after the last. */
%define api.pure full
%define api.prefix {k}
%lex-param {struct row *row}
%parse-param {struct row *row}

%code requires {
#include "others.h"

/* places of the tokens that a symbol covers: the first, and the one after the last */
struct span {
    uint16_t first, after;
};

/* the row being read, and the report so far */
struct row {
    const uint16_t *tokens;
    size_t count, next;
    uint16_t *out;
    uint32_t made;
};
}

%code {
#define YYINITDEPTH 20000
#define YYMAXDEPTH 20000

static int klex(KSTYPE *value, struct row *row);
static void kerror(struct row *row, const char *message);

static struct span reduced(struct row *row, uint16_t rule, uint16_t first, uint16_t after) {
    uint16_t *entry = row->out + 3 * row->made++;
    entry[0] = rule;
    entry[1] = first;
    entry[2] = after;
    return (struct span){first, after};
}
}

%define api.value.type {struct span}
%token STITCH COMMA OPEN CLOSE COUNT

%%

row: item | list;

item: STITCH                        { $$ = reduced(row, 0, $1.first, $1.after); }
    | OPEN item CLOSE COUNT         { $$ = reduced(row, 1, $1.first, $4.after); }
    | OPEN list CLOSE COUNT         { $$ = reduced(row, 2, $1.first, $4.after); }
    ;

list: item COMMA item               { $$ = reduced(row, 3, $1.first, $3.after); }
    | list COMMA item               { $$ = reduced(row, 4, $1.first, $3.after); }
    ;

%%

static int klex(KSTYPE *value, struct row *row) {
    static const int kinds[] = {KEOF, STITCH, COMMA, OPEN, CLOSE, COUNT};
    if (row->next == row->count) {
        return KEOF;
    }
    uint16_t token = row->tokens[row->next];
    value->first = (uint16_t)row->next++;
    value->after = (uint16_t)row->next;
    return token <= 5 ? kinds[token] : KUNDEF;
}

static void kerror(struct row *row, const char *message) {
    (void)row;
    (void)message;
}

uint32_t bison_parse(const uint16_t *tokens, size_t count, uint16_t *out, uint32_t *entries) {
    struct row row = {tokens, count, 0, out, 0};
    int status = kparse(&row);
    *entries = row.made;
    return status == 0 ? 0 : 1;
}
