"""Random grammars, rows, cuts and schedules for tests and vectors.

A grammar is drawn from a family of small operator grammars in the sense of
document 01 ("no renaming, no empty right side; backward deterministic"), is
then changed a little or not at all, and its rules, terminals and nonterminals
are renumbered.  Nothing here decides whether a grammar is accepted: load does.
A row is drawn by a random derivation, and then changed a little or not at all.
All draws come from the generator that is passed in, so a seed fixes them.
"""

from grugalash_reference.grammar import NONTERMINAL, is_nonterminal, words_of


def nt(k):
    """Nonterminal k as a symbol word."""
    return NONTERMINAL + k


K = (5, 2, 2, [
    (0, (1,)), (0, (3, nt(0), 4, 5)), (0, (3, nt(1), 4, 5)),
    (1, (nt(0), 2, nt(0))), (1, (nt(1), 2, nt(0))),
])
"""Grammar K of document 01 as (T, N, A, rules)."""


# Families of grammars, each as (T, N, A, rules).


def stitches(rng):
    """Grammar K."""
    return K


def lists(rng):
    """Lists of lists: one or two separators, the inner one tighter, each leaning left
    or right, and up to two kinds of brackets around items or lists."""
    levels = rng.randint(1, 2)
    item, T = levels, 1
    rules = [(item, (T,))]
    inside = list(range(levels + 1))
    for level in range(levels):
        T += 1
        leans_left = rng.random() < 0.7
        for x in inside[level:]:
            for y in inside[level + 1:]:
                rules.append((level, (nt(x), T, nt(y)) if leans_left else (nt(y), T, nt(x))))
    for _ in range(rng.randint(0, 2)):
        left, right = T + 1, T + 2
        T += 2
        tail = ()
        if rng.random() < 0.5:
            T += 1
            tail = (T,)
        for x in rng.sample(inside, rng.randint(1, len(inside))):
            rules.append((item, (left, nt(x), right) + tail))
        if rng.random() < 0.3:
            rules.append((item, (left, right) + tail))
    return T, levels + 1, rng.randint(1, levels + 1), rules


def operators(rng):
    """Binary operators by precedence, each level leaning left, right or neither,
    perhaps a prefix operator and a postfix operator, atoms and brackets; with the
    renamings worked out, so that each level is a nonterminal of its own."""
    levels = rng.randint(1, 3)
    atom = levels
    every = range(levels + 1)
    T, rules = 1, [(atom, (1,))]
    if rng.random() < 0.7:
        T += 2
        rules += [(atom, (T - 1, nt(x), T)) for x in every]
    for level in range(levels):
        here, tighter = range(level, levels + 1), range(level + 1, levels + 1)
        kind = rng.choice(("left", "left", "right", "neither", "prefix", "postfix"))
        for _ in range(rng.choice((1, 1, 2))):
            T += 1
            if kind == "prefix":
                rules += [(level, (T, nt(x))) for x in here]
            elif kind == "postfix":
                rules += [(level, (nt(x), T)) for x in here]
            else:
                fronts = here if kind == "left" else tighter
                backs = here if kind == "right" else tighter
                rules += [(level, (nt(x), T, nt(y))) for x in fronts for y in backs]
    return T, levels + 1, rng.randint(1, levels + 1), rules


def conditionals(rng):
    """if e then s else s, closed or open, a condition with an operator of its own."""
    IF, THEN, ELSE, END, DO, TEST, AND = 1, 2, 3, 4, 5, 6, 7
    if rng.random() < 0.5:
        rules = [(0, (DO,)), (1, (TEST,)), (0, (IF, nt(1), THEN, nt(0), END)),
                 (0, (IF, nt(1), THEN, nt(0), ELSE, nt(0), END))]
        if rng.random() < 0.5:
            rules.append((2, (nt(1), AND, nt(1))))
            rules += [(0, (IF, nt(2), THEN, nt(0), END)),
                      (0, (IF, nt(2), THEN, nt(0), ELSE, nt(0), END))]
            return 7, 3, 1, rules
        return 6, 2, rng.randint(1, 2), rules
    whole, open_, test = 0, 1, 2
    rules = [(whole, (DO,)), (test, (TEST,)),
             (whole, (IF, nt(test), THEN, nt(whole), ELSE, nt(whole))),
             (open_, (IF, nt(test), THEN, nt(whole))),
             (open_, (IF, nt(test), THEN, nt(open_))),
             (open_, (IF, nt(test), THEN, nt(whole), ELSE, nt(open_)))]
    return 6, 3, 2, rules


def brackets(rng):
    """Nested brackets of several kinds, each empty, filled or doubled inside."""
    kinds = rng.randint(1, 3)
    T = 2 * kinds
    rules = []
    for kind in range(kinds):
        left, right = 2 * kind + 1, 2 * kind + 2
        rules.append((0, (left, right)))
        rules.append((0, (left, nt(0), right)))
        if rng.random() < 0.4:
            T += 1
            rules.append((0, (left, nt(0), T, nt(0), right)))
        if rng.random() < 0.4:
            T += 1
            rules.append((1, (left, nt(0), T)))
            rules.append((0, (left, nt(1), right)))
    return T, 2, rng.randint(1, 2), rules


def long_sides(rng):
    """Right sides of up to 8 symbols, tokens with single nonterminals between."""
    T, N = rng.randint(3, 8), rng.randint(1, 3)
    rules = [(k, (rng.randint(1, T),)) for k in range(N)]
    for _ in range(rng.randint(1, 4)):
        right = []
        while len(right) < rng.randint(2, 8):
            if rng.random() < 0.35 and not (right and is_nonterminal(right[-1])):
                right.append(nt(rng.randrange(N)))
            else:
                right.append(rng.randint(1, T))
        rules.append((rng.randrange(N), tuple(right[:8])))
    return T, N, rng.randint(1, N), rules


def tiny(rng):
    """A few random short rules over few symbols."""
    T, N = rng.randint(1, 4), rng.randint(1, 3)
    rules = [(rng.randrange(N), (rng.randint(1, T),))]
    for _ in range(rng.randint(1, 5)):
        rules.append((rng.randrange(N), random_right(rng, T, N, rng.randint(1, 4))))
    return T, N, rng.randint(1, N), rules


FAMILIES = (stitches, lists, operators, operators, conditionals, brackets, long_sides, tiny)


def random_right(rng, T, N, length):
    """A right side with a terminal and no adjacent nonterminals."""
    right = []
    for _ in range(length):
        if rng.random() < 0.45 and not (right and is_nonterminal(right[-1])):
            right.append(nt(rng.randrange(N)))
        else:
            right.append(rng.randint(1, T))
    if all(is_nonterminal(symbol) for symbol in right):
        right.append(rng.randint(1, T))
    return tuple(right[:8])


# Changes to a grammar.


def changed(rng, grammar):
    """The grammar with one small change."""
    T, N, A, rules = grammar
    rules = list(rules)
    at = rng.randrange(len(rules))
    left, right = rules[at]
    kind = rng.randrange(8)
    if kind == 0 and len(rules) > 1:
        del rules[at]
    elif kind == 1 and len(rules) < 40:
        rules.insert(at, (rng.randrange(N), random_right(rng, T, N, rng.randint(1, 5))))
    elif kind == 2:
        rules[at] = (rng.randrange(N), right)
    elif kind == 3:
        place = rng.randrange(len(right))
        other = nt(rng.randrange(N)) if is_nonterminal(right[place]) else rng.randint(1, T)
        rules[at] = (left, right[:place] + (other,) + right[place + 1:])
    elif kind == 4 and len(right) > 1:
        place = rng.randrange(len(right))
        rules[at] = (left, right[:place] + right[place + 1:])
    elif kind == 5 and len(right) < 8:
        place = rng.randint(0, len(right))
        symbol = nt(rng.randrange(N)) if rng.random() < 0.4 else rng.randint(1, T)
        rules[at] = (left, right[:place] + (symbol,) + right[place:])
    elif kind == 6:
        A = rng.randint(1, N)
    elif kind == 7 and T < 63:
        T += 1
        place = rng.randrange(len(right))
        rules[at] = (left, right[:place] + (T,) + right[place + 1:])
    return T, N, A, rules


def renumbered(rng, grammar):
    """The grammar with its terminals, its axioms, its other nonterminals and its rules
    each in another order."""
    T, N, A, rules = grammar
    terminals = rng.sample(range(1, T + 1), T)
    numbers = rng.sample(range(A), A) + rng.sample(range(A, N), N - A)

    def renamed(symbol):
        return nt(numbers[symbol - NONTERMINAL]) if is_nonterminal(symbol) else terminals[symbol - 1]

    rules = [(numbers[left], tuple(map(renamed, right))) for left, right in rules]
    return T, N, A, rng.sample(rules, len(rules))


def random_grammar(rng):
    """The words of a random grammar."""
    grammar = rng.choice(FAMILIES)(rng)
    for _ in range(rng.choice((0, 0, 1, 1, 2, 3))):
        grammar = changed(rng, grammar)
    if rng.random() < 0.7:
        grammar = renumbered(rng, grammar)
    return words_of(*grammar)


# Rows.


def heights(grammar):
    """For each nonterminal the rules of least height that derive tokens, or None."""
    height = [None] * grammar.N
    grown = True
    while grown:
        grown = False
        for rule in grammar.rules:
            parts = [height[symbol - NONTERMINAL] for symbol in rule.right if is_nonterminal(symbol)]
            if None not in parts:
                new = 1 + max(parts, default=0)
                if height[rule.left] is None or new < height[rule.left]:
                    height[rule.left] = new
                    grown = True
    return height


def derived_row(rng, grammar, most):
    """A row of at most some `most` tokens by a random derivation from an axiom, or None."""
    height = heights(grammar)
    axioms = [axiom for axiom in range(grammar.A) if height[axiom] is not None]
    if not axioms:
        return None

    def rank(rule):
        parts = [height[symbol - NONTERMINAL] for symbol in rule.right if is_nonterminal(symbol)]
        return None if None in parts else 1 + max(parts, default=0)

    ranks = {number: rank(rule) for number, rule in enumerate(grammar.rules)}
    row, waiting = [], [nt(rng.choice(axioms))]
    while waiting:
        symbol = waiting.pop()
        if not is_nonterminal(symbol):
            row.append(symbol)
            continue
        k = symbol - NONTERMINAL
        options = [r for r, rule in enumerate(grammar.rules) if rule.left == k and ranks[r] is not None]
        if len(row) + len(waiting) >= most or rng.random() < 0.1:
            least = min(ranks[r] for r in options)
            options = [r for r in options if ranks[r] == least]
        waiting.extend(reversed(grammar.rules[rng.choice(options)].right))
        if len(row) > 4 * most:
            return None
    return row


def changed_row(rng, row, T):
    """A row with one small change, still one token at least."""
    row = list(row)
    kind = rng.randrange(6)
    at = rng.randrange(len(row))
    if kind == 0:
        row[at] = rng.randint(1, T)
    elif kind == 1:
        row.insert(at, rng.randint(1, T))
    elif kind == 2 and len(row) > 1:
        del row[at]
    elif kind == 3:
        other = rng.randrange(len(row))
        row[at], row[other] = row[other], row[at]
    elif kind == 4:
        row = row[:at + 1] if rng.random() < 0.5 else row[at:]
    elif kind == 5:
        row = row[:at] + row[at:at + 4] + row[at:]
    return row


def random_row(rng, grammar, most):
    """A row: derived, derived and changed, or tokens at random."""
    row = None
    if rng.random() < 0.9:
        row = derived_row(rng, grammar, rng.randint(1, most))
    if row is None or len(row) > 3 * most:
        return [rng.randint(1, grammar.T) for _ in range(rng.randint(1, 8))]
    for _ in range(rng.choice((0, 0, 0, 1, 1, 2))):
        row = changed_row(rng, row, grammar.T)
    return row


def random_cuts(rng, n, most):
    """At most `most` nondecreasing places from 0 to n, some of them equal."""
    cuts = [rng.randint(0, n) for _ in range(rng.randint(0, most))]
    if cuts and rng.random() < 0.3:
        cuts.append(rng.choice(cuts))
    return sorted(cuts)


# Schedules.


def allowed(state):
    """All calls that are not refused: ("run", c) and ("join", c)."""
    calls = []
    for c in state.live:
        chunk = state.chunks[c]
        if not chunk.at_rest:
            calls.append(("run", c))
            continue
        d = state.next_live(c)
        if d is not None and state.chunks[d].at_rest:
            calls.append(("join", c))
    return calls


def leaning(rng):
    """A way to choose among the allowed calls: evenly, or leaning to the front, to
    the back, to joins or to runs."""
    kind = rng.choice(("even", "even", "front", "back", "joins", "runs"))

    def choose(calls):
        if kind == "even" or rng.random() < 0.1:
            return rng.choice(calls)
        if kind == "front":
            return calls[0]
        if kind == "back":
            return calls[-1]
        wanted = [call for call in calls if call[0] == kind[:-1]]
        return rng.choice(wanted or calls)

    return choose
