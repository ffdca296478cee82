"""The work area (docs/AREA.md): a state as words, words as a state, the shape rules.

Document 01: "The area holds each live chunk's stack with its marks, its unread
symbols, the reductions made since start [..] and the count of moves, as words
at places docs/ gives" and "The shape rules speak only of ranges, lengths and
counts of the lent words and bytes; 15 is given whenever one of them is broken
and never otherwise."

The layout, all in 16-bit words:

    0 n    1 C    2, 3 moves (low, high)    4 reductions made, m
    then the chunk table, 5 words a chunk: status, from, head, end, marks
         (status 0 gone, 1 running, 17..20 stuck so; a gone chunk: five zeros)
    then the slots, 4 words a place, n+2 places: slot 0 is # of chunk 0, slot i+1 is
         token i, slot n+1 is # of the end.  A symbol over k places is one block of
         4k words: symbol, mark, k, zeros, k.  The place of slot s is s - 1.
    then the reductions, 3 words each, n of them, in the order made, unused ones zero.

A chunk's stack is the blocks on the slots from `from` to `head`, its unread
symbols are those from `head` to `end`.
"""

from collections import deque

from grugalash_reference import chunks, grammar, moves, report
from grugalash_reference.chunks import Chunk, Entry, Reduction, State, Symbol, area_need
from grugalash_reference.grammar import END_MARK, NONTERMINAL, is_nonterminal
from grugalash_reference.refusal import Refused

GONE, RUNNING, STUCK = 0, 1, (17, 18, 19, 20)
TABLE, ROW, SLOT = 5, 5, 4


def slots_at(C):
    """The word at which the slots start."""
    return TABLE + ROW * C


def reductions_at(n, C):
    """The word at which the reductions start."""
    return slots_at(C) + SLOT * (n + 2)


# A state as words.


def block(symbol, marked, k):
    """The words of a symbol over k places."""
    return [symbol, int(marked), k] + [0] * (SLOT * k - 4) + [k]


def encode(state):
    """The area_need(n, C) words of a state whose symbols stand next to each other."""
    n, C = state.n, len(state.chunks)
    table, slots, end = [], [], 0
    for chunk in state.chunks:
        if chunk is None:
            table += [GONE, 0, 0, 0, 0]
            continue
        head = end
        first = end
        for entry in chunk.stack:
            slots += block(entry.symbol, entry.marked, entry.after - entry.first)
            head += entry.after - entry.first
        end = head
        for unread in chunk.unread:
            slots += block(unread.symbol, False, unread.after - unread.first)
            end += unread.after - unread.first
        marks = sum(entry.marked for entry in chunk.stack)
        table += [chunk.stuck or RUNNING, first, head, end, marks]
    slots += [0] * (SLOT * (n + 2) - len(slots))
    done = [word for reduction in state.reductions for word in reduction]
    done += [0] * (3 * n - len(done))
    low, high = state.moves & 0xFFFF, state.moves >> 16
    return [n, C, low, high, len(state.reductions)] + table + slots + done


# Words as a state.


def blocks(area, first, after):
    """The blocks on the slots from `first` to `after`, as (symbol, mark, slot, slot
    after), read by their lengths; None if they do not end at `after`."""
    found, slot = [], first
    while slot < after:
        at = slots_at(area[1]) + SLOT * slot
        symbol, mark, k = area[at:at + 3]
        if k < 1 or slot + k > after:
            return None
        found.append((symbol, mark, slot, slot + k))
        slot += k
    return found


def decode_chunk(area, c):
    """Chunk c of the table: None when it is gone; ValueError when it cannot be read."""
    status, first, head, end, _ = table_row(area, c)
    if status == GONE:
        return None
    if status != RUNNING and status not in STUCK or not first <= head <= end <= area[0] + 2:
        raise ValueError("no chunk")
    stack, unread = blocks(area, first, head), blocks(area, head, end)
    if stack is None or unread is None:
        raise ValueError("no blocks")
    return Chunk(
        [Entry(symbol, mark != 0, slot - 1, after - 1) for symbol, mark, slot, after in stack],
        deque(Symbol(symbol, slot - 1, after - 1) for symbol, _, slot, after in unread),
        0 if status == RUNNING else status)


def decode(area):
    """The state that the first area_need(n, C) words can be read as, or None.  It is
    read by lengths only: whether the words are exactly those of a state that keeps
    the rules is `encode(decode(area))` and `keeps_rules`."""
    if len(area) < TABLE or len(area) < area_need(area[0], area[1]):
        return None
    n, C, low, high, m = area[:TABLE]
    if m > n:
        return None
    try:
        row = [decode_chunk(area, c) for c in range(C)]
    except ValueError:
        return None
    at = reductions_at(n, C)
    done = [Reduction(*area[at + 3 * i:at + 3 * i + 3]) for i in range(m)]
    return State(n, row, done, low + (high << 16))


# The shape rules, over words and bytes.  Each is read when those before it hold.


def table_row(area, c):
    """The words status, from, head, end, marks of chunk c."""
    return area[TABLE + ROW * c:TABLE + ROW * (c + 1)]


def live_rows(area):
    """The table rows of the live chunks, in order."""
    rows = [table_row(area, c) for c in range(area[1])]
    return [row for row in rows if row[0] != GONE]


def sides(area):
    """For each live chunk its blocks on the stack and its unread blocks."""
    return [(blocks(area, first, head), blocks(area, head, end))
            for _, first, head, end, _ in live_rows(area)]


def rule_a(words):
    """(a) the grammar words pass 1 to 3."""
    try:
        grammar.check(words, last=3)
    except Refused:
        return False
    return True


def rule_b(words, matrix):
    """(b) the matrix has at least 4,096 bytes, of which only the first 4,096 are read:
    byte 0 is 2, bytes 1..63 are 0..1, bytes 64a (a >= 1) are 0 or 3, others 0..3,
    those of a or b past T are 0."""
    if len(matrix) < 4096 or matrix[0] != 2:
        return False
    for a in range(64):
        for b in range(64):
            byte = matrix[64 * a + b]
            if byte > 3 or byte and max(a, b) > words[0]:
                return False
            if a == 0 and b > 0 and byte > 1 or a > 0 and b == 0 and byte not in (0, 3):
                return False
    return True


def rule_c(area):
    """(c) n in 1..16,384, C in 1..64, the area at least area_need(n, C) words."""
    return (len(area) >= TABLE and 1 <= area[0] <= 16384 and 1 <= area[1] <= 64
            and len(area) >= area_need(area[0], area[1]))


def rule_d(area):
    """(d) each status is 0, 1 or 17..20, a gone chunk's row is zeros, chunk 0 is live,
    from 0, with at least one stack slot."""
    for c in range(area[1]):
        row = table_row(area, c)
        if row[0] not in (GONE, RUNNING, *STUCK) or row[0] == GONE and any(row):
            return False
    status, first, head, _, _ = table_row(area, 0)
    return status != GONE and first == 0 and head >= 1


def rule_e(area):
    """(e) each live chunk's `from` is the `end` of the live chunk before it and at most
    n+1, from <= head <= end; the last live chunk's `end` is n+2, or n+1 if chunk 0 is
    the only live chunk and its `head` is n+1 (accepted)."""
    n, last_end = area[0], 0
    rows = live_rows(area)
    for _, first, head, end, _ in rows:
        if first != last_end or first > n + 1 or not first <= head <= end:
            return False
        last_end = end
    accepted = len(rows) == 1 and rows[0][2] == n + 1 and last_end == n + 1
    return last_end == n + 2 or accepted


def whole(area, first, after, unread, T, N):
    """(f) for one side of a chunk: whole blocks, each with its length as its last word
    and zeros between, each mark word and symbol in its range; # only at the ends."""
    found = blocks(area, first, after)
    if found is None:
        return False
    for symbol, mark, slot, end in found:
        at = slots_at(area[1]) + SLOT * slot
        if area[at:at + SLOT * (end - slot)] != block(symbol, mark, end - slot) or mark > 1:
            return False
        if symbol == END_MARK:
            if mark or end - slot != 1 or slot not in (0, area[0] + 1):
                return False
        elif is_nonterminal(symbol):
            if mark or symbol >= NONTERMINAL + N:
                return False
        elif symbol > T or mark and unread:
            return False
        if symbol != END_MARK and (slot == 0 or end == area[0] + 2):
            return False
    return True


def rule_f(words, area):
    """(f) each side of `head` is whole blocks: k >= 1, the block ends within its side,
    its last word is k, the words between are 0; a mark word is 0 or 1.  # is a block
    of length 1, unmarked; it stands in slot 0, and in slot n+1 exactly when the last
    `end` is n+2, on a stack or unread, and nowhere else.  Other symbols are 1..T, or
    256..255+N unmarked; an unread one is unmarked."""
    return all(whole(area, first, head, False, words[0], words[1])
               and whole(area, head, end, True, words[0], words[1])
               for _, first, head, end, _ in live_rows(area))


def rule_g(area):
    """(g) `marks` is the number of marked symbols on the stack."""
    return all(row[4] == sum(mark != 0 for _, mark, _, _ in stack)
               for row, (stack, _) in zip(live_rows(area), sides(area)))


def rule_h(area):
    """(h) a stuck chunk has something unread, one stuck with 18 has a mark."""
    return all(status == RUNNING or end > head and (status != 18 or marks > 0)
               for status, _, head, end, marks in live_rows(area))


def terminals(area):
    """How many terminals other than # are on stacks and unread."""
    return sum(0 < found[0] < NONTERMINAL for pair in sides(area) for side in pair for found in side)


def potential(unread, symbols, live, others, running):
    """PHI = U + (S-1)(k-1) + t + 2(k-1) + r, the most moves that can still come: U
    unread symbols in all, S symbols on stacks and unread, k live chunks, t terminals
    other than #, r live chunks not stuck."""
    return unread + (symbols - 1) * (live - 1) + others + 2 * (live - 1) + running


def most_moves(n, C):
    """The bound on moves since start, joins included."""
    return n * C + n + 4 * C - 2


def rule_i(area):
    """(i) m + t <= n, t the terminals other than # on stacks and unread."""
    return area[4] + terminals(area) <= area[0]


def rule_j(area):
    """(j) moves + PHI <= nC + n + 4C - 2."""
    n, C, low, high = area[:4]
    pairs = sides(area)
    phi = potential(
        unread=sum(len(unread) for _, unread in pairs),
        symbols=sum(len(stack) + len(unread) for stack, unread in pairs),
        live=len(pairs),
        others=terminals(area),
        running=sum(row[0] == RUNNING for row in live_rows(area)))
    return low + (high << 16) + phi <= most_moves(n, C)


def rule_k(area):
    """(k) slots past the last `end` and unused reductions are zeros."""
    n, C, m = area[0], area[1], area[4]
    last_end = live_rows(area)[-1][3]
    past_end = area[slots_at(C) + SLOT * last_end:reductions_at(n, C)]
    unused = area[reductions_at(n, C) + 3 * m:area_need(n, C)]
    return not any(past_end) and not any(unused)


def table_in_shape(words, matrix):
    """The rules on grammar and matrix only, (a) and (b): those that start checks."""
    return rule_a(words) and rule_b(words, matrix)


def area_in_shape(words, area):
    """The rules on the work area, (c) to (k), under words that keep (a)."""
    return (rule_c(area) and rule_d(area) and rule_e(area) and rule_f(words, area)
            and rule_g(area) and rule_h(area) and rule_i(area) and rule_j(area) and rule_k(area))


def in_shape(words, matrix, area):
    """Whether all the shape rules hold; 15 is given exactly when not."""
    return table_in_shape(words, matrix) and area_in_shape(words, area)


# The same rules said of a state, for which every word of the area is fixed.


def state_potential(state):
    """PHI of a state."""
    live = [state.chunks[c] for c in state.live]
    return potential(
        unread=sum(len(chunk.unread) for chunk in live),
        symbols=sum(len(chunk.stack) + len(chunk.unread) for chunk in live),
        live=len(live),
        others=state_terminals(state),
        running=sum(not chunk.stuck for chunk in live))


def state_terminals(state):
    """The terminals other than # on stacks and unread of a state."""
    return sum(0 < one.symbol < NONTERMINAL
               for c in state.live for side in (state.chunks[c].stack, state.chunks[c].unread)
               for one in side)


def side_by_side(row):
    """Whether every symbol covers a place, and each starts where the one before ends."""
    return (all(one.first < one.after for one in row)
            and all(x.after == y.first for x, y in zip(row, row[1:])))


def inner_symbols(state):
    """The symbols of all live chunks, left to right, without # of chunk 0 and # of the
    end; None if these two do not stand where they should.  # of the end is missing
    when the only live chunk has read it."""
    parts = [[*state.chunks[c].stack, *state.chunks[c].unread] for c in state.live]
    row = [one for part in parts for one in part]
    if row[0] != Entry(END_MARK, False, -1, 0) or not side_by_side(row):
        return None
    if parts[-1] and parts[-1][-1] in (Entry(END_MARK, False, state.n, state.n + 1),
                                       Symbol(END_MARK, state.n, state.n + 1)):
        return row[1:-1]
    read = len(parts) == 1 and not state.chunks[0].unread and row[-1].after == state.n
    return row[1:] if read else None


def inner_symbol(one, T, N):
    """A terminal other than #, or a nonterminal unmarked."""
    unmarked = isinstance(one, Symbol) or not one.marked
    return 1 <= one.symbol <= T or unmarked and NONTERMINAL <= one.symbol < NONTERMINAL + N


def stuck_rightly(chunk):
    """A stuck chunk has something unread, one stuck with 18 has a mark."""
    if chunk.stuck == 18 and not any(entry.marked for entry in chunk.stack):
        return False
    return not chunk.stuck or bool(chunk.unread)


def keeps_rules(state, T, N):
    """Whether a state is one that the work area is meant to hold."""
    n, C, live = state.n, len(state.chunks), state.live
    if not (1 <= n <= 16384 and 1 <= C <= 64 and live and live[0] == 0 and state.chunks[0].stack):
        return False
    inner = inner_symbols(state)
    return (inner is not None
            and all(inner_symbol(one, T, N) for one in inner)
            and all(stuck_rightly(state.chunks[c]) for c in live)
            and len(state.reductions) + state_terminals(state) <= n
            and state.moves + state_potential(state) <= most_moves(n, C))


# The public calls on a lent area: refused with 15 first, then as on a state.


def start(words, matrix, tokens, cuts, area):
    """Start on a lent area; the area's old words are not read."""
    state = chunks.start(words, matrix, tokens, cuts, len(area), table_in_shape)
    lay(area, state)
    return 0, 0


def opened(words, matrix, area):
    """The grammar and the state of an area in shape, or refusal 15."""
    if not in_shape(words, matrix, area):
        raise Refused(15, 0)
    return grammar.read(words, last=3), decode(area)


def lay(area, state):
    """Write the words of a state; "anything beyond is untouched"."""
    area[:area_need(state.n, len(state.chunks))] = encode(state)


def run(words, matrix, area, c, budget):
    """"a move or run 15, 12, 13"."""
    read, state = opened(words, matrix, area)
    made = moves.run(read, matrix, state, c, budget)
    lay(area, state)
    return made


def step(words, matrix, area, c):
    """The one move of chunk c."""
    run(words, matrix, area, c, 1)
    return 0, 0


def join(words, matrix, area, c):
    """"a join 15, 12, 14"."""
    _, state = opened(words, matrix, area)
    moves.join(state, c)
    lay(area, state)
    return 0, 0


def report_of(words, matrix, area, report_run):
    """"the report 15, 16, 17 to 20, 11"."""
    _, state = opened(words, matrix, area)
    return report.report(state, report_run)
