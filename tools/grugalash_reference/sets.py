"""Left and right sets (document 01, "Sets and matrix").

"The left set of X is the least set such that, for every rule X -> w: if w
starts with terminal a, or with a nonterminal and then a, then a is in it; and
if w starts with nonterminal Y, all of Y's left set is. The right set mirrors
this from the end. All R rules count. Each set can be asked for as a 64-bit
number, bit t for terminal t, together with how many terminals it has."
"""

from . import grammar as grammar_words
from .grammar import NONTERMINAL, is_nonterminal
from .refusal import Refused


def front_terminal(w):
    """The terminal a when w "starts with terminal a, or with a nonterminal and then
    a", else None."""
    return next((word for word in w[:2] if not is_nonterminal(word)), None)


def least_sets(N, rules):
    """The least sets, as masks, one for each nonterminal, read from the front of
    each (left, right side): grown from nothing until every rule holds."""
    masks = [0] * N
    grown = True
    while grown:
        grown = False
        for left, w in rules:
            mask = masks[left]
            a = front_terminal(w)
            if a is not None:
                mask |= 1 << a
            if is_nonterminal(w[0]):
                mask |= masks[w[0] - NONTERMINAL]
            if mask != masks[left]:
                masks[left] = mask
                grown = True
    return masks


def left_sets(grammar):
    """The left set of every nonterminal, as masks."""
    return least_sets(grammar.N, grammar.rules)


def right_sets(grammar):
    """The right set of every nonterminal, as masks: the mirror, "from the end"."""
    return least_sets(grammar.N, [(rule.left, rule.right[::-1]) for rule in grammar.rules])


def size(mask):
    """How many terminals a set has: the count of ones of its mask."""
    return bin(mask).count("1")


def members(mask):
    """The terminals of a mask, rising."""
    return [t for t in range(64) if mask >> t & 1]


def set_asked(words, side, k):
    """The set of nonterminal k as (mask, size); side is "left" or "right".
    "Asking a set checks 1 to 5, then 21."; 21 is "set asked for number N or above"."""
    grammar = grammar_words.read(words)
    if k >= grammar.N:
        raise Refused(21, 0)
    mask = {"left": left_sets, "right": right_sets}[side](grammar)[k]
    return mask, size(mask)
