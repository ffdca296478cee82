"""Relations, the matrix and load (document 01, "Sets and matrix").

"The matrix has 64 by 64 entries, one byte each, a over b at 64a + b; unused
ones are 0."  "Loading checks 1 to 6 in that order, each over the whole
grammar, then 11."
"""

from . import grammar as grammar_words
from .grammar import END_MARK, NONTERMINAL, is_nonterminal
from .refusal import Refused
from .sets import left_sets, members, right_sets

BLANK, YIELDS, EQUAL, TAKES = 0, 1, 2, 3
MATRIX_BYTES = 4096


def related(grammar):
    """All related pairs: three sets of (a, b), by relation.

    "equal (2): some right side has a then b, or a, one nonterminal, b."
    "yields (1): some right side has a then nonterminal D, and b is in D's left set."
    "takes (3): some right side has nonterminal D then b, and a is in D's right set."
    "# yields to each member of an axiom's left set; each member of an axiom's
    right set takes over #; # equals #."
    """
    left, right = left_sets(grammar), right_sets(grammar)
    equal, yields, takes = {(END_MARK, END_MARK)}, set(), set()
    for rule in grammar.rules:
        w = rule.right
        for x, y in zip(w, w[1:]):
            if not is_nonterminal(x) and not is_nonterminal(y):
                equal.add((x, y))
            elif not is_nonterminal(x):
                yields.update((x, b) for b in members(left[y - NONTERMINAL]))
            elif not is_nonterminal(y):
                takes.update((a, y) for a in members(right[x - NONTERMINAL]))
        for x, y, z in zip(w, w[1:], w[2:]):
            if not is_nonterminal(x) and is_nonterminal(y) and not is_nonterminal(z):
                equal.add((x, z))
    for axiom in range(grammar.A):
        yields.update((END_MARK, b) for b in members(left[axiom]))
        takes.update((a, END_MARK) for a in members(right[axiom]))
    return {YIELDS: yields, EQUAL: equal, TAKES: takes}


def conflict(relations):
    """6 CONFLICT: "a pair has two relations"; the value is the "least 64a + b", or None."""
    yields, equal, takes = relations[YIELDS], relations[EQUAL], relations[TAKES]
    pairs = yields & equal | yields & takes | equal & takes
    return min((64 * a + b for a, b in pairs), default=None)


def matrix_of(grammar):
    """The matrix, or refusal 6."""
    relations = related(grammar)
    value = conflict(relations)
    if value is not None:
        raise Refused(6, value)
    matrix = bytearray(MATRIX_BYTES)
    for relation, pairs in relations.items():
        for a, b in pairs:
            matrix[64 * a + b] = relation
    return bytes(matrix)


def load(words, run):
    """Load: the matrix of the words into the lent run of bytes; the answer is 0, 0.
    "The matrix needs 4,096 bytes [..]; anything beyond is untouched."  """
    matrix = matrix_of(grammar_words.read(words))
    if len(run) < MATRIX_BYTES:
        raise Refused(11, MATRIX_BYTES)
    run[:MATRIX_BYTES] = matrix
    return 0, 0
