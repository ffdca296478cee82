"""The reference reader: document 01 (scope and exact rules) read anew in plain Python.

It shares no code and no table with the library's crates.  One module a
heading of document 01:

    refusal      "Refusal numbers": the numbers and their names
    grammar      "The grammar words": words read, refusals 1 to 5
    sets         "Sets and matrix": left and right sets, refusal 21
    matrix       "Sets and matrix": relations, matrix, load, refusals 6 and 11
    chunks       "Moves of a chunk": chunks, the state, start, refusals 7 to 11 and 15
    moves        "Moves of a chunk": the one move, step, run, join, refusals 12 to 14
    report       "The report": report and entry tokens, refusals 16 to 20 and 11
    parse        the front-to-back parse "also offered as one call"
    rows_text    the program `rows`: its text in, its text out
    derivation   derivations and all syntax trees of a row, with no precedence at all
"""
