"""The report (document 01, "The report").

"Each reduction is three words: rule, first place, place after the last. They
stand by rising third word, and where that is equal by falling second word
(equal spans, which no start reaches, by rising rule); this is the
front-to-back order. Each report also gives the moves since start, joins
included."
"""

from .refusal import Refused


def in_order(reductions):
    """The reductions in the order of the report."""
    return sorted(reductions, key=lambda one: (one.after, -one.first, one.rule))


def check_finished(state):
    """16 UNFINISHED: "several chunks live, or the one not at rest", value 0; then 17
    to 20: "the finished row stuck so", value its place."""
    if not state.finished:
        raise Refused(16, 0)
    chunk = state.chunks[state.live[0]]
    if chunk.stuck:
        raise Refused(chunk.stuck, chunk.place)


def check_room(reductions, run):
    """11 NO ROOM for the report: "3 words a reduction"."""
    if len(run) < 3 * len(reductions):
        raise Refused(11, 3 * len(reductions))


def report(state, run):
    """Write the report into the lent run of words; the answer is (reductions, moves).
    "the report 15, 16, 17 to 20, 11"; "anything beyond is untouched"."""
    check_finished(state)
    check_room(state.reductions, run)
    words = [word for one in in_order(state.reductions) for word in one]
    run[:len(words)] = words
    return len(state.reductions), state.moves


def entry_tokens(tokens, run, entry):
    """"A viewer may ask for the tokens of one report entry: the answer is that part
    of the caller's own token run. If the entry isn't wholly in the report run, its
    second word exceeds its third, or its third exceeds the token count, the answer
    is the part of no tokens at place 0."  The part is given as (place, tokens)."""
    if 3 * entry + 3 > len(run):
        return 0, tokens[0:0]
    _, first, after = run[3 * entry:3 * entry + 3]
    if first > after or after > len(tokens):
        return 0, tokens[0:0]
    return first, tokens[first:after]
