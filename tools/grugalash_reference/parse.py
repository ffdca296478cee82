"""The one-call parse (document 01, "Moves of a chunk" and "Refusal numbers").

"The front-to-back parse is C = 1, also offered as one call."  "The one-call
parse checks 1 to 9 by number, then 11 for the work area, then 17 to 20, then
11 for the report."  "once the one-call parse has passed 11 for its work area,
the words its formula counts are all zero when it ends, accepted or refused;
its other buffers follow the general rule."
"""

from . import grammar as grammar_words
from .chunks import area_need, check_tokens, first_state
from .matrix import matrix_of
from .moves import run
from .refusal import Refused
from .report import report


def front_to_back(grammar, matrix, tokens):
    """The state of the uncut row when its one chunk is at rest."""
    state = first_state(tokens, [])
    while not state.chunks[0].at_rest:
        run(grammar, matrix, state, 0, 1 << 16)
    return state


def parse(words, tokens, area, report_run):
    """Parse a row in one call, with a lent work area and a lent report run; the
    answer is (reductions, moves)."""
    grammar = grammar_words.read(words)
    matrix = matrix_of(grammar)
    check_tokens(grammar.T, tokens)
    need = area_need(len(tokens), 1)
    if len(area) < need:
        raise Refused(11, need)
    area[:need] = [0] * need
    return report(front_to_back(grammar, matrix, tokens), report_run)
