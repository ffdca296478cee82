"""A row's schedule for the program `vectors`: each call as words, and what the reference reader answers.

The calls (crates/vectors/src/rows.rt), each a word, call + 16 * chunk:
    1 start    2 step    3 run, and its budget    4 join    5 the schedule of the program `rows`, over so many chunks
    6 report, and the words of its run            7 the one-call parse, likewise
    8 the area is kept    9 it is as it was kept
    10, 11, 12 a word of the area, a byte of the matrix, a word of the grammar is changed: its place and the new value
    13 the area's words are shown                 14 the first words of the report's run are shown
A call's answer is its number, value and moves, and the sum of what it was lent to write.
"""

from functools import lru_cache

import area_reference
from grugalash_reference import chunks, grammar, moves, parse, report
from grugalash_reference.refusal import Refused

from .stream import folded, line, run_words, sum_of, wide

GREATEST = 4294967295
MET = {}
"""For each call the refusal numbers that it has given, 0 for none."""


@lru_cache(maxsize=64)
def table_in_shape(words, matrix):
    """The shape rules of grammar and matrix; the same table is asked about again and again."""
    return area_reference.table_in_shape(words, matrix)


class Row:
    """A row under a group's grammar, in an area of nines; its calls and their answers."""

    def __init__(self, group, tokens, cuts, room=None, aloud=True):
        self.group, self.tokens, self.cuts, self.aloud = group, list(tokens), list(cuts), aloud
        room = chunks.area_need(len(tokens), len(cuts) + 1) if room is None else room
        self.area, self.kept, self.out = [9] * room, None, []
        self.given = [4 if aloud else 5, *run_words(tokens), *run_words(cuts), *wide(room)]
        self.lines, self.sum, self.calls = [], 0, 0

    def case(self):
        """The whole case: words given, text wanted."""
        return [*self.given, 0], "".join(self.lines) + line([self.sum])

    # What the reference reader says of the lent words.

    def opened(self):
        """The grammar and the state of the area, or refusal 15."""
        words, matrix = tuple(self.group.words), bytes(self.group.matrix)
        if not table_in_shape(words, matrix) or not area_reference.area_in_shape(words, self.area):
            raise Refused(15, 0)
        return grammar.read(words, last=3), area_reference.decode(self.area)

    @property
    def state(self):
        """The state of an area in shape."""
        return area_reference.decode(self.area)

    def told(self, name, call, sums):
        """Make a call: its answer, and the sums of what it was lent to write."""
        try:
            value, made = call()
            numbers = [0, value, made]
        except Refused as refused:
            numbers = [refused.number, refused.value, 0]
        MET.setdefault(name, set()).add(numbers[0])
        total = sum_of(sums()[0])
        for more in sums()[1:]:
            total = folded(total, sum_of(more))
        numbers.append(total)
        self.calls += 1
        for number in numbers:
            self.sum = folded(self.sum, number)
        if self.aloud:
            self.lines.append(line(numbers))
        return numbers

    def changing(self, name, call):
        """A call on the area."""
        return self.told(name, call, lambda: [self.area])

    # The calls.

    def start(self):
        def call():
            state = chunks.start(self.group.words, self.group.matrix, self.tokens, self.cuts, len(self.area),
                                 lambda words, matrix: table_in_shape(tuple(words), bytes(matrix)))
            area_reference.lay(self.area, state)
            return 0, 0
        self.given.append(1)
        return self.changing("start", call)

    def run(self, c, budget, name="run"):
        def call():
            read, state = self.opened()
            made = moves.run(read, self.group.matrix, state, c, budget)
            area_reference.lay(self.area, state)
            return (made, 0) if name == "run" else (0, 0)
        self.given += [3 + 16 * c, min(budget, 65535)] if name == "run" else [2 + 16 * c]
        return self.changing(name, call)

    def step(self, c):
        return self.run(c, 1, "step")

    def join(self, c):
        def call():
            _, state = self.opened()
            moves.join(state, c)
            area_reference.lay(self.area, state)
            return 0, 0
        self.given.append(4 + 16 * c)
        return self.changing("join", call)

    def to_end(self):
        """The schedule of the program `rows`; calls that are refused change nothing."""
        count = len(self.cuts) + 1

        def call():
            read, state = self.opened()
            for c in range(count):
                attempt(lambda: moves.run(read, self.group.matrix, state, c, GREATEST))
            for _ in range(1, count):
                attempt(lambda: moves.join(state, 0))
                attempt(lambda: moves.run(read, self.group.matrix, state, 0, GREATEST))
            area_reference.lay(self.area, state)
            return 0, 0
        self.given.append(5 + 16 * count)
        return self.changing("to_end", lambda: attempt(call) or (0, 0))

    def report(self, room):
        def call():
            self.out = [9] * room
            _, state = self.opened()
            return report.report(state, self.out)
        self.given += [6, room]
        return self.told("report", call, lambda: [self.out])

    def parse(self, room):
        def call():
            self.out = [9] * room
            return parse.parse(self.group.words, self.tokens, self.area, self.out)
        self.given += [7, room]
        return self.told("parse", call, lambda: [self.area, self.out])

    def keep(self):
        self.given.append(8)
        self.kept = list(self.area)

    def again(self):
        self.given.append(9)
        self.area[:] = self.kept

    def change(self, at, word):
        self.given += [10, at, word]
        self.area[at] = word

    def change_matrix(self, at, byte):
        self.given += [11, at, byte]
        self.group.matrix[at] = byte

    def change_grammar(self, at, word):
        self.given += [12, at, word]
        self.group.words[at] = word

    def show_area(self):
        self.given.append(13)
        self.lines.append(line(self.area))

    def show_report(self, count):
        self.given += [14, count]
        self.lines.append(line(self.out[:count]))


def attempt(call):
    """A call whose refusal is passed over."""
    try:
        return call()
    except Refused:
        return None
