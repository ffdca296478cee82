"""The work area: encode and decode, and the shape rules.

- decode(encode(state)) is the state, all along random schedules, and every reached
  state is in shape;
- an area, damaged or not, is in shape exactly when it is the words of a state that
  keeps the rules;
- every move and join of any state in shape keeps it in shape, and a call on the area
  leaves exactly the words of the state that the same call on the state leaves.
"""

import random
from collections import deque

import area_reference as area
from grugalash_reference import chunks, grammar, matrix, moves
from grugalash_reference.chunks import Chunk, Entry, Reduction, State, Symbol, area_need
from grugalash_reference.grammar import NONTERMINAL
from grugalash_reference.refusal import Refused
from random_rows import allowed, random_cuts, random_grammar, random_row

from .any_state import any_words
from .demands import follow
from .expect import COUNTS, expect, refused, same
from .samples import K_WORDS, loaded


def check_state(words, state):
    """A state that keeps the rules is in shape and comes back from its words."""
    lent = area.encode(state)
    same(len(lent), area_need(state.n, len(state.chunks)), "the length of an area", state=state)
    expect(all(0 <= word <= 65535 for word in lent), "no words", state=state)
    same(area.decode(lent), state, "decode(encode(state))", words=words)
    expect(area.keeps_rules(state, words[0], words[1]), "a state does not keep the rules", words=words, state=state)
    expect(area.area_in_shape(words, lent), "an area is not in shape", words=words, state=state)
    COUNTS["states in shape"] += 1


def reached_round(rng):
    """A random schedule: every state is in shape, with the loaded matrix too."""
    words = random_grammar(rng)
    try:
        read = grammar.read(words)
        table = matrix.matrix_of(read)
    except Refused:
        return
    tokens = random_row(rng, read, 12)
    cuts = random_cuts(rng, len(tokens), 4)
    state = chunks.first_state(tokens, cuts)
    check_state(words, state)
    expect(area.in_shape(words, table, area.encode(state)), "a start is not in shape", words=words)
    facts = {"words": words, "tokens": tokens, "cuts": cuts}
    before = [state.moves + area.state_potential(state)]
    same(before[0], area.most_moves(len(tokens), len(cuts) + 1), "PHI of a start", **facts)

    def watch(reached):
        check_state(words, reached)
        now = reached.moves + area.state_potential(reached)
        expect(now <= before[0], "a move by which PHI does not fall", state=reached, **facts)
        before[0] = now

    follow(rng, read, table, state, facts, watch)


def is_a_state(words, lent):
    """Whether the words are those of a state that keeps the rules."""
    state = area.decode(lent)
    if state is None or not area.keeps_rules(state, words[0], words[1]):
        return False
    return area.encode(state) == lent[:area_need(state.n, len(state.chunks))]


def telling_words(rng, words, old):
    """Words that tell: small ones, statuses, symbols, and those next to the old word."""
    some = [0, 1, 2, 3, 17, 18, 19, 20, 21, words[0], words[0] + 1, 63, 64, 255, 256, 255 + words[1],
            256 + words[1], 65535, rng.randrange(65536)]
    return {word for word in some + [old - 1, old + 1, old + 2] if 0 <= word <= 65535}


def check_damaged(words, lent, facts):
    """In shape exactly when it is the words of a state that keeps the rules."""
    found = area.area_in_shape(words, lent)
    same(found, is_a_state(words, lent), "in shape, or a state's words, but not both",
         words=words, area=lent, **facts)
    COUNTS["damaged areas in shape" if found else "damaged areas out of shape"] += 1


def damage(rng, words, state):
    """Every single word of the area changed to each telling word."""
    lent = area.encode(state) + [7] * rng.choice((0, 0, 3))
    for place in range(len(lent)):
        old = lent[place]
        for word in telling_words(rng, words, old):
            lent[place] = word
            check_damaged(words, lent, {"place": place})
        lent[place] = old
    for cut in (0, 1, 4, 5, area_need(state.n, len(state.chunks)) - 1):
        check_damaged(words, lent[:cut], {"cut": cut})


def damage_more(rng, words, state):
    """Some words changed at once: two or three by hand, or rows and blocks moved about."""
    for _ in range(60):
        lent = area.encode(state)
        for _ in range(rng.choice((2, 2, 3))):
            place = rng.randrange(len(lent))
            if rng.random() < 0.3:
                lent[place] = lent[rng.randrange(len(lent))]
            else:
                lent[place] = rng.choice(sorted(telling_words(rng, words, lent[place])))
        check_damaged(words, lent, {})


def shaped_matrix(rng, T):
    """Any matrix that keeps rule (b)."""
    table = bytearray(4096)
    for a in range(T + 1):
        for b in range(T + 1):
            table[64 * a + b] = rng.randint(0, 3) if a and b else rng.choice((0, 1) if b else (0, 3))
    table[0] = 2
    return bytes(table)


def shaped_row(rng, words, n):
    """Symbols of any kind and length that stand next to each other over places 0 to n."""
    row, place = [], 0
    while place < n:
        after = min(n, place + rng.choice((1, 1, 1, 2, 3)))
        terminal = rng.random() < 0.5
        symbol = rng.randint(1, words[0]) if terminal else NONTERMINAL + rng.randrange(words[1])
        row.append(Symbol(symbol, place, after))
        place = after
    return row


def shaped_chunk(rng, row, first, head, after):
    """A chunk of a part of the row, its stack up to `head`, marked and stuck anyhow."""
    stack = [Entry(one.symbol, 0 < one.symbol < NONTERMINAL and rng.random() < 0.3, one.first, one.after)
             for one in row[first:head]]
    stuck = rng.choice((0, 0, 17, 18, 19, 20)) if head < after else 0
    if stuck == 18 and not any(entry.marked for entry in stack):
        stuck = 0
    return Chunk(stack, deque(row[head:after]), stuck)


def shaped_state(rng, words):
    """A state that keeps the rules, the bound on moves aside, but that no start need
    reach: chunks cut anywhere between the symbols from # to #."""
    n, C = rng.randint(1, 9), rng.randint(1, 4)
    live = [0] + sorted(rng.sample(range(1, C), rng.randint(0, C - 1)))
    row = [Symbol(0, -1, 0)] + shaped_row(rng, words, n)
    accepted = len(live) == 1 and rng.random() < 0.2
    if not accepted:
        row.append(Symbol(0, n, n + 1))
    bounds = [0] + sorted(rng.randint(1, len(row) - 1) for _ in live[1:]) + [len(row)]
    state = State(n, [None] * C)
    for c, first, after in zip(live, bounds, bounds[1:]):
        head = after if accepted else rng.randint(first + (c == 0), after)
        state.chunks[c] = shaped_chunk(rng, row, first, head, after)
    terminals = area.state_terminals(state)
    state.reductions = [Reduction(*(rng.choice((0, 1, 2, 9, 65535)) for _ in range(3)))
                        for _ in range(rng.randint(0, n - terminals))]
    spare = area.most_moves(n, C) - area.state_potential(state)
    state.moves = rng.randint(0, spare) if spare > 0 else 0
    return state


def nearly_shaped(rng, words):
    """A state that breaks one rule, most often, in a way no few words can."""
    state = shaped_state(rng, words)
    state.moves = 0
    first, last = state.chunks[0], state.chunks[state.live[-1]]
    kind = rng.randrange(6)
    if kind == 0 and len(first.stack) > 1:
        # # over two places
        first.stack[:2] = [Entry(0, False, -1, first.stack[1].after)]
    elif kind == 1:
        # a live chunk after the # of the end
        state.chunks.append(Chunk())
    elif kind == 2:
        # the # of the end is gone with several chunks live
        side = last.unread if last.unread else last.stack
        if side[-1].symbol == 0:
            side.pop()
    elif kind == 3 and first.stack:
        # # in the middle
        at = rng.randrange(len(first.stack))
        first.stack[at] = first.stack[at]._replace(symbol=0)
    elif kind == 4:
        # a marked symbol of any kind
        at = rng.randrange(len(first.stack))
        first.stack[at] = first.stack[at]._replace(marked=True)
    elif kind == 5:
        # moves or reductions at the edge of their rules
        spare = area.most_moves(state.n, len(state.chunks)) - area.state_potential(state)
        state.moves = max(0, spare + rng.randint(0, 1))
        terminals = area.state_terminals(state)
        state.reductions = [Reduction(0, 0, 0)] * min(state.n, state.n - terminals + rng.randint(0, 1))
    return state


def calls_alike(words, read, table, state, kind, c):
    """A call on the area leaves the words that the call on the state leaves, and no others."""
    lent = area.encode(state) + [7, 7]
    if kind == "join":
        same(area.join(words, table, lent, c), moves.join(state, c), "a join's answer")
    else:
        same(area.run(words, table, lent, c, 1), moves.run(read, table, state, c, 1), "a run's answer")
    same(lent, area.encode(state) + [7, 7], "the words after a call", words=words, state=state)


def nearly_round(rng):
    """States that keep all rules but one, most often."""
    words = any_words(rng)
    for _ in range(20):
        check_damaged(words, area.encode(nearly_shaped(rng, words)), {})


def limits():
    """The ranges of rule (c): n and C at their ends and just past them."""
    for n, C, within in ((1, 1, True), (0, 1, False), (16384, 1, True), (16385, 1, False),
                         (5, 64, True), (5, 65, False)):
        state = chunks.first_state([1] * n, [n // 2] * (C - 1))
        same(area.area_in_shape(K_WORDS, area.encode(state)), within, "in shape or not", n=n, C=C)
        same(area.keeps_rules(state, 5, 2), within, "keeps the rules or not", n=n, C=C)
    expect(not area.area_in_shape(K_WORDS, [1, 0] + [0] * 30), "no chunks at all")


def shaped_round(rng):
    """States in shape that no start reaches: damage, moves and joins."""
    words = any_words(rng)
    read = grammar.read(words, last=3)
    table = shaped_matrix(rng, words[0])
    state = shaped_state(rng, words)
    if not area.keeps_rules(state, words[0], words[1]):
        same(area.area_in_shape(words, area.encode(state)), False, "in shape", words=words, state=state)
        COUNTS["states out of shape"] += 1
        return
    check_state(words, state)
    if rng.random() < 0.06:
        damage(rng, words, state)
    damage_more(rng, words, state)
    while True:
        calls = allowed(state)
        if not calls:
            break
        kind, c = rng.choice(calls)
        if rng.random() < 0.1:
            calls_alike(words, read, table, state, kind, c)
        elif kind == "join":
            moves.join(state, c)
        else:
            moves.run(read, table, state, c, rng.choice((1, 1, 5)))
        check_state(words, state)


def damaged_reached():
    """Every single word of some areas that grammar K reaches, changed."""
    rng = random.Random("damaged")
    read, table = loaded(K_WORDS)
    state = chunks.first_state([1, 2, 3, 1, 4, 5], [2, 2])
    for steps in (0, 7, 9):
        for _ in range(steps):
            kind, c = allowed(state)[-1]
            moves.join(state, c) if kind == "join" else moves.step(read, table, state, c)
        damage(rng, K_WORDS, state)


def bad_tables():
    """Rules (a) and (b), each broken by itself, and 15 from each call before all else."""
    _, table = loaded(K_WORDS)
    tokens, cuts = [1, 2, 1], [1]
    lent = [7] * 60
    same(area.start(K_WORDS, table, tokens, cuts, lent), (0, 0), "start on an area")
    same(lent[44:], [7] * 16, "words past the area's need")
    same(lent[:44], area.encode(chunks.first_state(tokens, cuts)), "the words of a start")
    expect(area.in_shape(K_WORDS, table + b"x", lent), "a longer matrix")
    for words, bytes_ in bad_pairs(table):
        expect(not area.in_shape(words, bytes_, lent), "in shape", words=words)
        refused(15, 0, area.start, words, bytes_, [], [9], [])
        refused(15, 0, area.run, words, bytes_, lent, 99, 0)
        refused(15, 0, area.step, words, bytes_, lent, 99)
        refused(15, 0, area.join, words, bytes_, lent, 99)
        refused(15, 0, area.report_of, words, bytes_, lent, [])
    refused(15, 0, area.run, K_WORDS, table, lent[:43], 99, 0)
    refused(12, 0, area.step, K_WORDS, table, lent, 2)
    refused(14, 0, area.join, K_WORDS, table, lent, 0)
    refused(16, 0, area.report_of, K_WORDS, table, lent, [])
    refused(11, 44, area.start, K_WORDS, table, tokens, cuts, [7] * 43)


def bad_pairs(table):
    """Words and matrix of which one breaks rule (a) or (b)."""
    yield K_WORDS[:-4], table
    yield [64] + K_WORDS[1:], table
    yield K_WORDS[:10] + [0] + K_WORDS[11:], table
    yield K_WORDS, table[:4095]
    for place, byte in ((0, 0), (0, 1), (0, 3), (1, 2), (5, 3), (6, 1), (63, 1), (64, 1), (64, 2), (65, 4),
                        (65, 255), (64 + 6, 1), (6 * 64, 3), (6 * 64 + 1, 2), (4095, 1)):
        yield K_WORDS, table[:place] + bytes([byte]) + table[place + 1:]
