"""The program `rows` as a function from bytes to bytes (document 01, "Sample rows").

"The program `rows` reads three text lines of decimal numbers (leading zeros
allowed) parted by single spaces: grammar words, tokens, cuts. A line may be
empty [..]. Text after the third line is not read. It moves chunk 0 until at
rest, then 1, and so on, then joins chunk 0 rightwards, moving it to rest after
each join."
"""

from . import grammar as grammar_words
from .chunks import check_cuts, check_tokens, first_state
from .matrix import matrix_of
from .moves import join, run
from .refusal import Refused
from .report import check_finished, in_order

MOST = (2564, 1024, 64)
"""How many numbers each line may hold: "Its own buffers hold 1,024 tokens, 2,564
grammar words and 64 cuts; longer lines give `text L` too." """


class BadText(Exception):
    """`text L`: line L is the first bad line."""

    def __init__(self, line):
        super().__init__(f"text {line}")
        self.line = line


def number_of(digits):
    """The number that a piece between single spaces stands for, or None for "misplaced
    or other character or number above 65,535"."""
    if not digits or any(not 48 <= byte <= 57 for byte in digits):
        return None
    digits = digits.lstrip(b"0")
    if len(digits) > 5 or int(digits or b"0") > 65535:
        return None
    return int(digits or b"0")


def lines_of(text):
    """The numbers of the three lines.  "A missing line, misplaced or other character
    or number above 65,535 gives `text L`, L the first bad line of 1 to 3 [..]. A line
    without its line feed is missing." """
    lines, place = [], 0
    for line in (1, 2, 3):
        end = text.find(b"\n", place)
        if end < 0:
            raise BadText(line)
        pieces = text[place:end].split(b" ") if end > place else []
        if len(pieces) > MOST[line - 1]:
            raise BadText(line)
        numbers = [number_of(piece) for piece in pieces]
        if None in numbers:
            raise BadText(line)
        lines.append(numbers)
        place = end + 1
    return lines


def to_rest(grammar, matrix, state, c):
    """Move chunk c until it is at rest."""
    while not state.chunks[c].at_rest:
        run(grammar, matrix, state, c, 1 << 16)


def rows_schedule(grammar, matrix, state):
    """The schedule of `rows`: each chunk to rest, then chunk 0 joined rightwards and
    moved to rest after each join."""
    for c in state.live:
        to_rest(grammar, matrix, state, c)
    while state.next_live(0) is not None:
        join(state, 0)
        to_rest(grammar, matrix, state, 0)


def answer(words, tokens, cuts):
    """The lines that `rows` writes for a row, "first line tokens, chunks, moves, then
    the report", or the refusal."""
    grammar = grammar_words.read(words)
    matrix = matrix_of(grammar)
    check_tokens(grammar.T, tokens)
    check_cuts(len(tokens), cuts)
    state = first_state(tokens, cuts)
    rows_schedule(grammar, matrix, state)
    check_finished(state)
    lines = [f"parse {state.n} {len(state.chunks)} {state.moves}"]
    lines += [f"{one.rule} {one.first} {one.after}" for one in in_order(state.reductions)]
    return lines


def rows(text):
    """What `rows` writes for the bytes that it reads."""
    try:
        lines = answer(*lines_of(text))
    except BadText as bad:
        lines = [f"text {bad.line}"]
    except Refused as refused:
        lines = [f"refused {refused.number} {refused.value}"]
    return "".join(line + "\n" for line in lines).encode("ascii")
