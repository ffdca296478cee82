"""The grammar words (document 01, "The grammar words" and refusals 1 to 5).

"A grammar is a lent run of 16-bit words: T, N, A, R; then the contents, R
words, each the word place at which that rule's body starts; then the bodies
in rule order, without gaps. A body is the left side as its plain number k,
then the right side: a terminal as its number, nonterminal k as 256 + k. A
body ends where the next starts, the last at the end of the run."

Each check below looks over the whole grammar, and is made only when those
before it have passed.  It gives the value of its refusal, or None.
"""

from typing import NamedTuple

from .refusal import Refused

END_MARK = 0
NONTERMINAL = 256


def is_nonterminal(symbol):
    """Whether a symbol word is "nonterminal k as 256 + k"."""
    return symbol >= NONTERMINAL


class Rule(NamedTuple):
    """One rule: the number of its left side, and its right side as symbol words."""

    left: int
    right: tuple


class Grammar:
    """Terminals 1..T, nonterminals 0..N-1 of which the first A are axioms, and the rules."""

    def __init__(self, T, N, A, rules):
        self.T = T
        self.N = N
        self.A = A
        self.rules = tuple(rules)
        self._least_rule = {}
        for number, rule in enumerate(self.rules):
            self._least_rule.setdefault(rule.right, number)

    def least_rule(self, right):
        """The least rule that has this right side, or None."""
        return self._least_rule.get(tuple(right))

    def is_axiom(self, symbol):
        """Whether a symbol word is an axiom: "the first A are the axioms"."""
        return NONTERMINAL <= symbol < NONTERMINAL + self.A


def head(words):
    """1 HEAD: "one of the first 4 words is absent or outside 1..63, 1..64, 1..N,
    1..256"; the value is the "first such word"."""
    for place in range(4):
        if place >= len(words):
            return place
        most = (63, 64, words[1] if len(words) > 1 else 0, 256)[place]
        if not 1 <= words[place] <= most:
            return place
    return None


def contents(words):
    """2 CONTENTS: "an entry is absent, entry 0 isn't 4+R, an entry isn't 2 to 9
    above the one before, or the last body isn't 2 to 9 words"; the value is the
    "first such entry; R for the last body"."""
    R = words[3]
    for entry in range(R):
        if 4 + entry >= len(words):
            return entry
        start = words[4 + entry]
        if entry == 0:
            if start != 4 + R:
                return 0
        elif not 2 <= start - words[4 + entry - 1] <= 9:
            return entry
    if not 2 <= len(words) - words[4 + R - 1] <= 9:
        return R
    return None


def bodies(words):
    """The word places (first, place after) of the bodies in rule order."""
    starts = list(words[4:4 + words[3]])
    return list(zip(starts, starts[1:] + [len(words)]))


def symbol(words):
    """3 SYMBOL: "a body word is no nonterminal (left) or no symbol"; the value is
    the "first such word place".  The end mark # (0) is no symbol of a body."""
    T, N = words[0], words[1]
    for first, after in bodies(words):
        if not words[first] < N:
            return first
        for place in range(first + 1, after):
            word = words[place]
            if not (1 <= word <= T or NONTERMINAL <= word < NONTERMINAL + N):
                return place
    return None


def form(words):
    """4 FORM: "a right side has two adjacent nonterminals, or no terminal"; the
    value is the "first such rule"."""
    for number, (first, after) in enumerate(bodies(words)):
        right = [is_nonterminal(word) for word in words[first + 1:after]]
        if all(right) or any(x and y for x, y in zip(right, right[1:])):
            return number
    return None


def twin(words):
    """5 TWIN: "an earlier rule has the same right side"; the value is the "least
    rule for which this holds"."""
    seen = set()
    for number, (first, after) in enumerate(bodies(words)):
        right = tuple(words[first + 1:after])
        if right in seen:
            return number
        seen.add(right)
    return None


CHECKS = ((1, head), (2, contents), (3, symbol), (4, form), (5, twin))


def check(words, last=5):
    """Refuse with the first of the checks 1 to `last` that does not pass."""
    for number, find in CHECKS:
        if number > last:
            return
        value = find(words)
        if value is not None:
            raise Refused(number, value)


def read(words, last=5):
    """The grammar of words that pass the checks 1 to `last` (3 is the least that
    makes them a grammar; two adjacent nonterminals, no terminal and twins pass 3)."""
    check(words, max(last, 3))
    rules = [Rule(words[first], tuple(words[first + 1:after])) for first, after in bodies(words)]
    return Grammar(words[0], words[1], words[2], rules)


def words_of(T, N, A, rules):
    """The words of a grammar given as numbers and (left, right side) pairs."""
    starts, place = [], 4 + len(rules)
    for _, right in rules:
        starts.append(place)
        place += 1 + len(right)
    words = [T, N, A, len(rules)] + starts
    for left, right in rules:
        words += [left, *right]
    return words
