"""Accepted rows against derivations, and schedules against the uncut row.

For every grammar that load accepts:
- a row is accepted exactly when an axiom derives it; it then has one syntax tree,
  and the report is the post-order of that tree;
- while a row is unfinished some move or join is allowed; moves, joins included, stay
  within nC + n + 4C - 2; and every finish gives the report of the uncut row, or its
  refusal with its place.
"""

import random
from itertools import product

from grugalash_reference import chunks, grammar, matrix, moves, parse, report, rows_text, sets
from grugalash_reference.derivation import Derivations
from grugalash_reference.grammar import NONTERMINAL, is_nonterminal
from grugalash_reference.refusal import Refused
from random_rows import allowed, leaning, random_cuts, random_grammar, random_row

from .expect import COUNTS, answer_of, expect, refused, same
from .samples import K_WORDS, loaded


def outcome(state):
    """The report words of a finished row, or its refusal; the count aside."""
    run = [0] * (3 * len(state.reductions))
    got = answer_of(report.report, state, run)
    return got if got[0] == "refused" else ("report", run)


def uncut_outcome(read, table, words, tokens):
    """The outcome of the front-to-back parse, held against the derivations."""
    state = parse.front_to_back(read, table, tokens)
    got = outcome(state)
    derivations = Derivations(read, tokens)
    trees = derivations.count()
    facts = {"words": words, "tokens": tokens, "outcome": got}
    if got[0] == "report":
        same(trees, 1, "an accepted row has not one tree", **facts)
        tree = next(derivations.trees())
        same(got[1], [word for one in tree for word in one], "no post-order", **facts)
        same(state.reductions, report.in_order(state.reductions), "not made in order", **facts)
        COUNTS["rows accepted"] += 1
    else:
        same(trees, 0, "a refused row is derived", **facts)
        expect(got[1] in (17, 18, 19), "a reached row is refused otherwise", **facts)
        expect(0 <= got[2] <= len(tokens), "a place outside the row", **facts)
        COUNTS["rows refused"] += 1
    expect(state.moves <= bound(len(tokens), 1), "too many moves", **facts)
    return got, state.moves


def bound(n, C):
    """The bound on moves, joins included."""
    return n * C + n + 4 * C - 2


def not_allowed(rng, read, table, state):
    """One call that must be refused, with its number; the state stays as it is."""
    before = state.copy()
    c = rng.randrange(len(state.chunks) + 1)
    live = c in state.live
    if not live:
        refused(12, 0, moves.run, read, table, state, c, 5)
        refused(12, 0, moves.join, state, c)
    elif state.chunks[c].at_rest:
        refused(13, 0, moves.run, read, table, state, c, rng.choice((0, 1)))
        d = state.next_live(c)
        if d is None or not state.chunks[d].at_rest:
            refused(14, 0, moves.join, state, c)
    else:
        same(moves.run(read, table, state, c, 0), 0, "K = 0 on a running chunk")
        refused(14, 0, moves.join, state, c)
    if not state.finished:
        refused(16, 0, report.report, state, [])
    same(state, before, "a refused call changes the state")


def follow(rng, read, table, state, facts, watch):
    """Follow a random schedule to its finish; `watch` sees every state."""
    choose = leaning(rng)
    made = 0
    while not state.finished:
        calls = allowed(state)
        expect(calls, "unfinished, and nothing is allowed", state=state, **facts)
        if rng.random() < 0.03:
            not_allowed(rng, read, table, state)
        kind, c = choose(calls)
        if kind == "join":
            moves.join(state, c)
            made += 1
        elif rng.random() < 0.5:
            moves.step(read, table, state, c)
            made += 1
        else:
            budget = rng.choice((1, 2, 3, 65535))
            done = moves.run(read, table, state, c, budget)
            expect(1 <= done <= budget, "a run's answer", budget=budget, done=done, **facts)
            expect(done == budget or state.chunks[c].at_rest, "a run stops early", **facts)
            made += done
        watch(state)
        expect(all(state.chunks[d].stuck != 20 for d in state.live), "side by side", state=state, **facts)
    same(state.moves, made, "the count of moves", **facts)
    expect(not allowed(state), "finished, and something is allowed", state=state, **facts)


def schedules(rng, read, table, words, tokens, wanted, how_many):
    """Random cuts and schedules of one row, each to the outcome of the uncut row."""
    for _ in range(how_many):
        cuts = random_cuts(rng, len(tokens), rng.choice((1, 2, 4, 8)))
        facts = {"words": words, "tokens": tokens, "cuts": cuts}
        state = chunks.first_state(tokens, cuts)
        follow(rng, read, table, state, facts, lambda _: None)
        same(outcome(state), wanted, "another outcome than the uncut row", **facts)
        expect(state.moves <= bound(len(tokens), len(cuts) + 1), "too many moves", moves=state.moves, **facts)
        COUNTS["schedules"] += 1


def rows_alike(rng, words, tokens, wanted, uncut_moves):
    """`rows` writes the same outcome, cut and uncut."""
    cuts = random_cuts(rng, len(tokens), 3)
    given = "".join(" ".join(map(str, line)) + "\n" for line in (words, tokens, cuts))
    lines = rows_text.rows(given.encode("ascii")).decode("ascii").splitlines()
    if wanted[0] == "refused":
        same(lines, [f"refused {wanted[1]} {wanted[2]}"], "what `rows` writes", given=given)
    else:
        head = lines[0].split()
        same(head[:3], ["parse", str(len(tokens)), str(len(cuts) + 1)], "what `rows` writes", given=given)
        same([int(word) for line in lines[1:] for word in line.split()], wanted[1], "its report", given=given)
        if not cuts:
            same(int(head[3]), uncut_moves, "its moves", given=given)


def reached_sets(read, sides):
    """The left sets found otherwise: from each nonterminal go to all that stand in
    front of its right sides, and take the front terminals met on the way."""
    fronts = [set() for _ in range(read.N)]
    for left, w in sides:
        if is_nonterminal(w[0]):
            fronts[left].add(w[0] - NONTERMINAL)
    masks = []
    for k in range(read.N):
        seen, waiting = {k}, [k]
        while waiting:
            new = fronts[waiting.pop()] - seen
            seen |= new
            waiting += new
        found = {w[1] if is_nonterminal(w[0]) else w[0] for left, w in sides if left in seen}
        masks.append(sum(1 << a for a in found))
    return masks


def check_sets(read, words):
    """Left and right sets of a grammar that passes 1 to 5."""
    front = [(rule.left, rule.right) for rule in read.rules]
    back = [(left, w[::-1]) for left, w in front]
    same(sets.left_sets(read), reached_sets(read, front), "left sets", words=words)
    same(sets.right_sets(read), reached_sets(read, back), "right sets", words=words)


def pair_relations(read, left, right, a, b):
    """The relations of one pair, read from the definitions for this pair alone."""
    found = set()
    for rule in read.rules:
        w = list(rule.right)
        for i in range(len(w) - 1):
            between = w[i + 1] >= NONTERMINAL
            if w[i] == a and (w[i + 1] == b or between and w[i + 2:i + 3] == [b]):
                found.add(matrix.EQUAL)
            if w[i] == a and between and left[w[i + 1] - NONTERMINAL] >> b & 1:
                found.add(matrix.YIELDS)
            if w[i + 1] == b and w[i] >= NONTERMINAL and right[w[i] - NONTERMINAL] >> a & 1:
                found.add(matrix.TAKES)
    axioms = range(read.A)
    if a == 0 and any(left[k] >> b & 1 for k in axioms):
        found.add(matrix.YIELDS)
    if b == 0 and any(right[k] >> a & 1 for k in axioms):
        found.add(matrix.TAKES)
    if a == b == 0:
        found.add(matrix.EQUAL)
    return found


def check_relations(read, words):
    """The matrix, or the least pair with two relations, pair by pair."""
    table, conflict = bytearray(4096), None
    left, right = sets.left_sets(read), sets.right_sets(read)
    for a in range(read.T + 1):
        for b in range(read.T + 1):
            found = pair_relations(read, left, right, a, b)
            table[64 * a + b] = min(found, default=0)
            if len(found) > 1 and conflict is None:
                conflict = 64 * a + b
    wanted = bytes(table) if conflict is None else ("refused", 6, conflict)
    same(answer_of(matrix.matrix_of, read), wanted, "matrix or conflict", words=words)
    COUNTS["matrices"] += 1


def random_round(rng):
    """One random grammar, its sets, and if load accepts it some of its rows."""
    words = random_grammar(rng)
    COUNTS["grammars"] += 1
    try:
        read = grammar.read(words)
        check_sets(read, words)
        if rng.random() < 0.1:
            check_relations(read, words)
        table = matrix.matrix_of(read)
    except Refused as refusal:
        expect(4 <= refusal.number <= 6, "another refusal of load", words=words, refusal=refusal)
        return
    COUNTS["loaded"] += 1
    for _ in range(rng.randint(2, 6)):
        tokens = random_row(rng, read, rng.choice((4, 8, 16, 30)))
        wanted, uncut_moves = uncut_outcome(read, table, words, tokens)
        schedules(rng, read, table, words, tokens, wanted, rng.randint(1, 3))
        if rng.random() < 0.3:
            rows_alike(rng, words, tokens, wanted, uncut_moves)


def all_short_rows():
    """Every row of up to 4 tokens of grammar K."""
    read, table = loaded(K_WORDS)
    for length in range(1, 5):
        for tokens in product(range(1, 6), repeat=length):
            uncut_outcome(read, table, K_WORDS, list(tokens))


def all_schedules():
    """Every schedule of some short rows of grammar K: each state once."""
    read, table = loaded(K_WORDS)
    for tokens in ([1], [1, 2, 1], [3, 1, 4, 5], [1, 2, 4, 1], [2, 2], [1, 2, 3, 1, 4]):
        wanted, _ = uncut_outcome(read, table, K_WORDS, tokens)
        n = len(tokens)
        for cuts in [[i] for i in range(n + 1)] + [[i, j] for i in range(n + 1) for j in range(i, n + 1)]:
            every_schedule(read, table, tokens, cuts, wanted)


def many_chunks():
    """A row of 400 tokens of grammar K and one that is refused, in 64 chunks."""
    rng = random.Random("many chunks")
    read, table = loaded(K_WORDS)
    row = [1] + [2, 3, 1, 2, 1, 4, 5, 2, 1] * 44 + [2, 1, 2]
    for tokens, kind in ((row[:-1], "report"), (row, "refused")):
        wanted = outcome(parse.front_to_back(read, table, tokens))
        same(wanted[0], kind, "another outcome", tokens=tokens)
        for cuts in (sorted(rng.randint(0, len(tokens)) for _ in range(63)), [200] * 63):
            facts = {"tokens": tokens, "cuts": cuts}
            state = chunks.first_state(tokens, cuts)
            follow(rng, read, table, state, facts, lambda _: None)
            same(outcome(state), wanted, "another outcome than the uncut row", **facts)
            expect(state.moves <= bound(len(tokens), 64), "too many moves", **facts)
            COUNTS["schedules"] += 1


def every_schedule(read, table, tokens, cuts, wanted):
    """All states that a start reaches by single moves and joins."""
    seen, waiting = set(), [chunks.first_state(tokens, cuts)]
    most = bound(len(tokens), len(cuts) + 1)
    while waiting:
        state = waiting.pop()
        expect(state.moves <= most, "too many moves", tokens=tokens, cuts=cuts)
        calls = allowed(state)
        same(bool(calls), not state.finished, "finished or not", tokens=tokens, cuts=cuts, state=state)
        if state.finished:
            same(outcome(state), wanted, "another outcome", tokens=tokens, cuts=cuts)
        for kind, c in calls:
            after = state.copy()
            if kind == "join":
                moves.join(after, c)
            else:
                moves.step(read, table, after, c)
            key = repr(after)
            if key not in seen:
                seen.add(key)
                waiting.append(after)
    COUNTS["states of all schedules"] += len(seen)


def derived_strings(read, most):
    """By definition: the strings of up to `most` tokens that each nonterminal derives,
    grown from nothing until no rule adds one."""
    strings = [set() for _ in range(read.N)]
    grown = True
    while grown:
        grown = False
        for rule in read.rules:
            found = {()}
            for symbol in rule.right:
                parts = strings[symbol - NONTERMINAL] if is_nonterminal(symbol) else {(symbol,)}
                found = {x + y for x in found for y in parts if len(x) + len(y) <= most}
            if not found <= strings[rule.left]:
                strings[rule.left] |= found
                grown = True
    return strings


def derivations_round(rng):
    """The derivations of a random grammar, load accepting it or not, against the
    strings that its axioms derive by definition."""
    words = random_grammar(rng)
    try:
        read = grammar.read(words)
    except Refused:
        return
    if read.T > 4 or len(read.rules) > 12:
        return
    strings = set().union(*derived_strings(read, 4)[:read.A])
    for length in range(1, 5):
        for tokens in product(range(1, read.T + 1), repeat=length):
            derivations = Derivations(read, tokens)
            trees = list(derivations.trees())
            same(bool(trees), tokens in strings, "derived or not", words=words, tokens=tokens)
            same(len(set(trees)), len(trees), "a tree twice", words=words, tokens=tokens)
            same(derivations.count(), len(trees), "the count of trees", words=words, tokens=tokens)
            COUNTS["rows derived or not"] += 1
