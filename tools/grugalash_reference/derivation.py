"""Derivations of a row, with no precedence at all: which rows the axioms derive
(document 01, "Numbers": rules, right sides, axioms), and all their syntax trees.

A nonterminal k derives the tokens of a span when some rule k -> w splits the
span so that each terminal of w is its one token and each nonterminal of w
derives its part.  Spans are counted by memory of smaller spans.  Every right
side has a terminal (refusal 4) and every part is at least one token, so a part
is always shorter than its span.
"""

from .grammar import NONTERMINAL, is_nonterminal


class Derivations:
    """The derivations of one row of tokens by one grammar that passes 1 to 5."""

    def __init__(self, grammar, tokens):
        self.grammar = grammar
        self.tokens = tokens
        self.rules_of = [[] for _ in range(grammar.N)]
        for number, rule in enumerate(grammar.rules):
            self.rules_of[rule.left].append(number)
        self._of_nonterminal = {}
        self._of_rest = {}

    def ways(self, k, first, after):
        """How many syntax trees nonterminal k has over the span."""
        key = k, first, after
        if key not in self._of_nonterminal:
            self._of_nonterminal[key] = sum(
                self.ways_of_rest(rule, 0, first, after) for rule in self.rules_of[k])
        return self._of_nonterminal[key]

    def splits(self, rule, at, first, after):
        """The places at which symbol `at` of the rule's right side may end: each later
        symbol keeps at least one token, the last one ends the span."""
        later = len(self.grammar.rules[rule].right) - at - 1
        return range(first + 1, after - later + 1) if later else (after,)

    def ways_of_rest(self, rule, at, first, after):
        """In how many ways the right side, from its symbol `at` on, derives the span."""
        right = self.grammar.rules[rule].right
        if at == len(right):
            return 1 if first == after else 0
        if first >= after:
            return 0
        if not is_nonterminal(right[at]):
            if self.tokens[first] != right[at]:
                return 0
            return self.ways_of_rest(rule, at + 1, first + 1, after)
        key = rule, at, first, after
        if key not in self._of_rest:
            total = 0
            for place in self.splits(rule, at, first, after):
                rest = self.ways_of_rest(rule, at + 1, place, after)
                if rest:
                    total += rest * self.ways(right[at] - NONTERMINAL, first, place)
            self._of_rest[key] = total
        return self._of_rest[key]

    def count(self):
        """How many syntax trees the row has from the axioms."""
        return sum(self.ways(axiom, 0, len(self.tokens)) for axiom in range(self.grammar.A))

    def trees_of(self, k, first, after):
        """All syntax trees of nonterminal k over the span, each as its post-order, a
        tuple of (rule, first place, place after)."""
        for rule in self.rules_of[k]:
            for parts in self.trees_of_rest(rule, 0, first, after):
                yield parts + ((rule, first, after),)

    def trees_of_rest(self, rule, at, first, after):
        """The post-orders of the right side from its symbol `at` on."""
        if not self.ways_of_rest(rule, at, first, after):
            return
        right = self.grammar.rules[rule].right
        if at == len(right):
            yield ()
        elif not is_nonterminal(right[at]):
            yield from self.trees_of_rest(rule, at + 1, first + 1, after)
        else:
            for place in self.splits(rule, at, first, after):
                for parts in self.trees_of_rest(rule, at + 1, place, after):
                    for part in self.trees_of(right[at] - NONTERMINAL, first, place):
                        yield part + parts

    def trees(self):
        """All syntax trees of the row from the axioms, as post-orders."""
        for axiom in range(self.grammar.A):
            yield from self.trees_of(axiom, 0, len(self.tokens))
