"""The one move of chunks that no start reaches: several nonterminals side by side, #
in the middle, no terminal at all, and a matrix that has nothing to do with the grammar.

Each move is held against document 01's six rules, said a second time as what
must be true of the chunk before and after.
"""

from collections import deque

from grugalash_reference import grammar, moves, report
from grugalash_reference.chunks import Chunk, Entry, State, Symbol
from grugalash_reference.grammar import NONTERMINAL, is_nonterminal
from random_rows import allowed, leaning, random_grammar

from .expect import COUNTS, answer_of, expect, same


def random_symbols(rng, read, how_many, place):
    """Symbols of any kind, each over one to three places."""
    found = []
    for _ in range(how_many):
        kind = rng.random()
        if kind < 0.1:
            symbol = 0
        elif kind < 0.55:
            symbol = rng.randint(1, read.T)
        else:
            symbol = NONTERMINAL + rng.randrange(read.N)
        after = place + rng.randint(1, 3)
        found.append(Symbol(symbol, place, after))
        place = after
    return found, place


def random_stack(rng, read, place):
    """A stack of any symbols, often with a right side of the grammar on top."""
    found, place = random_symbols(rng, read, rng.randint(0, 5), place)
    if rng.random() < 0.5:
        for symbol in rng.choice(read.rules).right:
            found.append(Symbol(symbol, place, place + 1))
            place += 1
    often = rng.choice((0, 0.2, 0.5))
    stack = [Entry(one.symbol, not is_nonterminal(one.symbol) and rng.random() < often, one.first, one.after)
             for one in found]
    return stack, place


def random_state(rng, read):
    """A state of any chunks, some of them gone, stuck or with nothing to read."""
    live, place = [], -1
    for _ in range(rng.randint(1, 4)):
        if live and rng.random() < 0.2:
            live.append(None)
            continue
        stack, place = random_stack(rng, read, place)
        if not live and rng.random() < 0.3:
            stack = [Entry(0, False, -1, 0)]
            if rng.random() < 0.7:
                stack.append(Entry(NONTERMINAL + rng.randrange(read.N), False, 0, 1))
        unread, place = random_symbols(rng, read, rng.randint(0, 5), place)
        if rng.random() < 0.3:
            unread.insert(0, Symbol(0, unread[0].first if unread else place, place))
        stuck = rng.choice((0, 0, 0, 17, 18, 19, 20)) if unread else 0
        live.append(Chunk(stack, deque(unread), stuck))
    return State(max(place, 1), live)


def random_matrix(rng):
    """Any relations at all."""
    return bytes(rng.choices(range(4), k=4096))


def named_move(read, table, before, after, made):
    """What rule made this of the chunk, and that it is the one that document 01 names."""
    b = before.unread[0]
    terminals = [entry.symbol for entry in before.stack if entry.symbol < NONTERMINAL]
    put = before.stack + [Entry(b.symbol, False, b.first, b.after)]
    put_marked = before.stack + [Entry(b.symbol, True, b.first, b.after)]
    rest = deque(list(before.unread)[1:])

    def came(stack, unread, stuck):
        return (after.stack, after.unread, after.stuck, made) == (stack, unread, stuck, None)

    def stuck_with(number):
        return came(before.stack, before.unread, number)

    if b.symbol >= NONTERMINAL:
        if before.stack and before.stack[-1].symbol >= NONTERMINAL:
            return stuck_with(20) and "side by side"
        return came(put, rest, 0) and "nonterminal put"
    if not terminals:
        return came(put, rest, 0) and "no terminal"
    a = terminals[-1]
    name = ("blank", "yields", "equal", "takes")[table[64 * a + b.symbol]]
    if name == "blank":
        return stuck_with(17) and "blank"
    if name == "yields":
        return came(put_marked, rest, 0) and "yields"
    if name == "equal" and (a, b.symbol) != (0, 0):
        return came(put, rest, 0) and "equal"
    if name == "equal":
        if [entry.symbol for entry in before.stack] in [[0, NONTERMINAL + k] for k in range(read.A)]:
            return came(before.stack, rest, 0) and "end read"
        return stuck_with(19) and "not axiom"
    marked = [at for at, entry in enumerate(before.stack) if entry.marked]
    if not marked:
        return came(put, rest, 0) and "takes, no mark"
    at = marked[-1]
    if at and before.stack[at - 1].symbol >= NONTERMINAL:
        at -= 1
    handle = before.stack[at:]
    right = tuple(entry.symbol for entry in handle)
    fits = [number for number, rule in enumerate(read.rules) if rule.right == right]
    if not fits:
        return stuck_with(18) and "no rule"
    first, last = handle[0].first, handle[-1].after
    left = NONTERMINAL + read.rules[fits[0]].left
    wanted = before.stack[:at] + [Entry(left, False, first, last)]
    return ((after.stack, after.unread, after.stuck, made)
            == (wanted, before.unread, 0, (fits[0], first, last)) and "reduced")


def check_join(before, after, c):
    """A join of chunk c, said of the state before and after."""
    d = before.next_live(c)
    one, other, got = before.chunks[c], before.chunks[d], after.chunks[c]
    passed = [(e.symbol, e.first, e.after) for e in other.stack]
    wanted = list(one.unread) + passed + list(other.unread)
    expect(got.stack == one.stack and list(got.unread) == wanted and got.stuck == one.stuck
           and after.chunks[d] is None and after.reductions == before.reductions
           and after.moves == before.moves + 1
           and all(after.chunks[x] == before.chunks[x] for x in range(len(after.chunks)) if x not in (c, d)),
           "another join", before=before, after=after, c=c)
    COUNTS["joins of any state"] += 1


def follow_any(rng, read, table, state, words):
    """Moves and joins of any state, each held against its name, until nothing is allowed."""
    choose = leaning(rng)
    while True:
        calls = allowed(state)
        if not calls:
            return
        kind, c = choose(calls)
        before = state.copy()
        if kind == "join":
            moves.join(state, c)
            check_join(before, state, c)
            continue
        moves.step(read, table, state, c)
        made = state.reductions[len(before.reductions):]
        expect(len(made) <= 1 and state.moves == before.moves + 1, "not one move", before=before)
        name = named_move(read, table, before.chunks[c], state.chunks[c], made[0] if made else None)
        expect(name, "not the move named", before=before.chunks[c], after=state.chunks[c], words=words)
        COUNTS["move: " + name] += 1
        COUNTS["moves of any state"] += 1


def any_words(rng):
    """Words that pass 1 to 3: FORM, TWIN and CONFLICT may fail."""
    words = random_grammar(rng)
    if rng.random() < 0.4:
        for first, after in grammar.bodies(words):
            if rng.random() < 0.3:
                place = rng.randrange(first + 1, after)
                words[place] = NONTERMINAL + rng.randrange(words[1])
    return words


def random_round(rng):
    """One grammar, one matrix, some states."""
    words = any_words(rng)
    read = grammar.read(words, last=3)
    table = random_matrix(rng)
    for _ in range(10):
        state = random_state(rng, read)
        follow_any(rng, read, table, state, words)
        got = answer_of(report.report, state, [0] * 3 * len(state.reductions))
        live = [state.chunks[c] for c in state.live]
        if len(live) > 1:
            wanted = ("refused", 16, 0)
        elif live[0].stuck:
            wanted = ("refused", live[0].stuck, live[0].unread[0].first)
        else:
            wanted = (len(state.reductions), state.moves)
        same(got, wanted, "the report of any state", state=state, words=words)


def all_rules_met():
    """Every kind of move was met."""
    names = ("side by side", "nonterminal put", "no terminal", "blank", "yields", "equal", "end read",
             "not axiom", "takes, no mark", "no rule", "reduced")
    missing = [name for name in names if not COUNTS["move: " + name]]
    expect(not missing, "kinds of move never met", missing=missing)
