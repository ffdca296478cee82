"""Chunks, the state of a row and start (document 01, "Moves of a chunk").

"Cuts are C-1 nondecreasing places from 0 to n; equal cuts give empty chunks.
Each chunk has a stack and symbols still to read. Chunk 0 starts with # on its
stack, others with nothing. The last chunk reads # after its tokens. A chunk
is at rest if it is stuck or has nothing to read."

Every symbol knows the places that it covers, first place and place after.
Token i covers i to i+1.  So that all symbols of a row stand next to each
other, # of chunk 0 is given -1 to 0, and # of the end n to n+1: its place is
n, "place n is the end".
"""

from collections import deque
from dataclasses import dataclass, field
from typing import NamedTuple

from . import grammar as grammar_words
from .grammar import END_MARK
from .refusal import Refused

MOST_TOKENS = 16384
MOST_CUTS = 63


class Symbol(NamedTuple):
    """An unread symbol."""

    symbol: int
    first: int
    after: int


class Entry(NamedTuple):
    """An entry of a stack: a symbol, marked or not."""

    symbol: int
    marked: bool
    first: int
    after: int


class Reduction(NamedTuple):
    """"Each reduction is three words: rule, first place, place after the last."  """

    rule: int
    first: int
    after: int


@dataclass
class Chunk:
    """A live chunk: its stack (top last), its unread symbols (next first), and the
    number it is stuck with, 0 while it runs."""

    stack: list = field(default_factory=list)
    unread: deque = field(default_factory=deque)
    stuck: int = 0

    @property
    def at_rest(self):
        """"A chunk is at rest if it is stuck or has nothing to read."  """
        return self.stuck != 0 or not self.unread

    @property
    def place(self):
        """"A stuck place is that of the unread b": the first place it covers."""
        return self.unread[0].first

    def copy(self):
        return Chunk(list(self.stack), deque(self.unread), self.stuck)


@dataclass
class State:
    """A row between two calls: n tokens, its chunks by number (a gone one is None),
    the reductions in the order made, and the count of moves, joins included."""

    n: int
    chunks: list
    reductions: list = field(default_factory=list)
    moves: int = 0

    @property
    def live(self):
        """The numbers of the live chunks, rising."""
        return [c for c, chunk in enumerate(self.chunks) if chunk is not None]

    def next_live(self, c):
        """The next live chunk to the right of chunk c, or None."""
        return next((d for d in range(c + 1, len(self.chunks)) if self.chunks[d] is not None), None)

    @property
    def finished(self):
        """One chunk is live, and it is at rest (not refused with 16)."""
        live = self.live
        return len(live) == 1 and self.chunks[live[0]].at_rest

    def copy(self):
        chunks = [None if chunk is None else chunk.copy() for chunk in self.chunks]
        return State(self.n, chunks, list(self.reductions), self.moves)


def area_need(n, C):
    """"The work area needs a fixed number of 16-bit words, given in docs/ as a
    formula of n and C, at most 16(n+1) + 16C + 64."  """
    return 7 * n + 5 * C + 13


def check_tokens(T, tokens):
    """7 EMPTY, 8 TOO LONG, 9 BAD TOKEN ("outside 1..T", "first such place")."""
    if len(tokens) == 0:
        raise Refused(7, 0)
    if len(tokens) > MOST_TOKENS:
        raise Refused(8, 0)
    for place, token in enumerate(tokens):
        if not 1 <= token <= T:
            raise Refused(9, place)


def check_cuts(n, cuts):
    """10 BAD CUT: "more than 63 cuts, or a cut below its predecessor or above n";
    the value is "63, else first bad cut's index"."""
    if len(cuts) > MOST_CUTS:
        raise Refused(10, MOST_CUTS)
    for index, cut in enumerate(cuts):
        if cut > n or (index > 0 and cut < cuts[index - 1]):
            raise Refused(10, index)


def first_state(tokens, cuts):
    """The state of a row that start makes from tokens and cuts that pass 7 to 10."""
    n = len(tokens)
    bounds = [0, *cuts, n]
    chunks = []
    for first, after in zip(bounds, bounds[1:]):
        chunks.append(Chunk(unread=deque(Symbol(tokens[i], i, i + 1) for i in range(first, after))))
    chunks[0].stack.append(Entry(END_MARK, False, -1, 0))
    chunks[-1].unread.append(Symbol(END_MARK, n, n + 1))
    return State(n, chunks)


def start(words, matrix, tokens, cuts, area_words, in_shape=None):
    """Start a row with a work area of `area_words` words: the first state.
    "Start checks 15 (grammar and matrix only; the area's old words aren't read),
    7, 8, 9, 10, 11".  `in_shape(words, matrix)` tells whether grammar and matrix
    keep the shape rules; without it they are taken to."""
    if in_shape is not None and not in_shape(words, matrix):
        raise Refused(15, 0)
    check_tokens(grammar_words.read(words, last=3).T, tokens)
    check_cuts(len(tokens), cuts)
    need = area_need(len(tokens), len(cuts) + 1)
    if area_words < need:
        raise Refused(11, need)
    return first_state(tokens, cuts)
