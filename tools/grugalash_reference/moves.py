"""The one move of a chunk, step, run and join (document 01, "Moves of a chunk").

`one_move` is written for any chunk, one that no start reaches too, and for
any bytes 0 to 3 as matrix: "Any other state that keeps the shape rules gets
the move named above."
"""

from .chunks import Entry, Reduction, Symbol
from .grammar import END_MARK, NONTERMINAL, is_nonterminal
from .matrix import BLANK, EQUAL, TAKES, YIELDS
from .refusal import Refused


def topmost_terminal(stack):
    """The topmost stack terminal a, or None: "The stack has no terminal"."""
    for entry in reversed(stack):
        if not is_nonterminal(entry.symbol):
            return entry.symbol
    return None


def handle_start(stack):
    """Where the handle starts on the stack, or None if no marked terminal is on it.
    "the handle runs from the topmost marked one to the top, with the nonterminal
    just below that mark if there is one." """
    for at in range(len(stack) - 1, -1, -1):
        if stack[at].marked and not is_nonterminal(stack[at].symbol):
            if at > 0 and is_nonterminal(stack[at - 1].symbol):
                return at - 1
            return at
    return None


def put(chunk, marked):
    """Put the next symbol on the stack."""
    b = chunk.unread.popleft()
    chunk.stack.append(Entry(b.symbol, marked, b.first, b.after))


def read_end(grammar, chunk):
    """# over #: "if the stack is # and an axiom read #, the stack unchanged, else
    stuck with 19"."""
    symbols = [entry.symbol for entry in chunk.stack]
    if len(symbols) == 2 and symbols[0] == END_MARK and grammar.is_axiom(symbols[1]):
        chunk.unread.popleft()
    else:
        chunk.stuck = 19


def reduce_handle(grammar, chunk, at):
    """Rule 5 for the handle that starts at `at`: "If a rule has this right side,
    replace it by the left side of the least such rule, b staying unread; otherwise
    stuck with 18." """
    handle = chunk.stack[at:]
    rule = grammar.least_rule(entry.symbol for entry in handle)
    if rule is None:
        chunk.stuck = 18
        return None
    first, after = handle[0].first, handle[-1].after
    left = NONTERMINAL + grammar.rules[rule].left
    chunk.stack[at:] = [Entry(left, False, first, after)]
    return Reduction(rule, first, after)


def one_move(grammar, matrix, chunk):
    """One move of a chunk that is not at rest: the reduction that it made, or None.
    "Getting stuck is itself a move." """
    b = chunk.unread[0].symbol
    if is_nonterminal(b):
        # 1. "b is a nonterminal: if the top is one too, stuck with 20; else put it on
        #    the stack."
        if chunk.stack and is_nonterminal(chunk.stack[-1].symbol):
            chunk.stuck = 20
        else:
            put(chunk, marked=False)
        return None
    a = topmost_terminal(chunk.stack)
    if a is None:
        # 2. "The stack has no terminal: put b on it, unmarked."
        put(chunk, marked=False)
        return None
    relation = matrix[64 * a + b]
    if relation == BLANK:
        # 3. "a over b blank: stuck with 17."
        chunk.stuck = 17
        return None
    if relation == YIELDS:
        # 4. "Yields: put b on, marked."
        put(chunk, marked=True)
        return None
    if relation == EQUAL:
        # 4. "Equal: put b on, unmarked; but for # over #, [..]"
        if a == END_MARK and b == END_MARK:
            read_end(grammar, chunk)
        else:
            put(chunk, marked=False)
        return None
    if relation != TAKES:
        raise ValueError(f"matrix byte {relation} is no relation")
    at = handle_start(chunk.stack)
    if at is not None:
        # 5. "Takes, a marked terminal on the stack: [..]"
        return reduce_handle(grammar, chunk, at)
    # 6. "Takes, no mark on the stack: put b on, unmarked."
    put(chunk, marked=False)
    return None


def live_chunk(state, c):
    """Chunk c, or 12 NO CHUNK: "number not live"."""
    if not 0 <= c < len(state.chunks) or state.chunks[c] is None:
        raise Refused(12, 0)
    return state.chunks[c]


def run(grammar, matrix, state, c, budget):
    """"A chunk can be run with a budget K: it makes moves until K are made or it
    rests, and answers how many it made. K = 0 on a running chunk answers 0."
    Refused with 12, then with 13 AT REST: "move or run of a chunk at rest"."""
    chunk = live_chunk(state, c)
    if chunk.at_rest:
        raise Refused(13, 0)
    made = 0
    while made < budget and not chunk.at_rest:
        reduction = one_move(grammar, matrix, chunk)
        if reduction is not None:
            state.reductions.append(reduction)
        made += 1
    state.moves += made
    return made


def step(grammar, matrix, state, c):
    """Make the one move of chunk c; the answer is 0, 0."""
    run(grammar, matrix, state, c, 1)
    return 0, 0


def join(state, c):
    """Join chunk c to the next live chunk; the answer is 0, 0.

    "Joining chunk c to the next live chunk needs both at rest and is one move. The
    stack is c's. Unread is what c had unread, then the other's stack symbols, then
    its unread symbols. If c was stuck it stays so with its refusal; a stuck right
    side is forgotten. The result is numbered c; the other number is gone."
    Refused with 12, then with 14 NO JOIN: "no live chunk to the right, or either
    not at rest"."""
    chunk = live_chunk(state, c)
    d = state.next_live(c)
    if d is None or not chunk.at_rest or not state.chunks[d].at_rest:
        raise Refused(14, 0)
    other = state.chunks[d]
    chunk.unread.extend(Symbol(entry.symbol, entry.first, entry.after) for entry in other.stack)
    chunk.unread.extend(other.unread)
    state.chunks[d] = None
    state.moves += 1
    return 0, 0
