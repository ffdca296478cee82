"""Cases of rows: the samples of document 01, an area damaged word by word, random schedules, rows at the limits, report entries.

Each row that a schedule finishes is also parsed in one call, and both reports have to be the same words.
"""

from grugalash_reference import grammar
from grugalash_reference.chunks import area_need
from grugalash_reference.refusal import Refused
from grugalash_reference.report import entry_tokens
from random_rows import K, allowed, leaning, random_cuts, random_grammar, random_row

from .schedule import GREATEST, Row
from .stream import line, run_words, wide
from .tables import Group, damaged

SAMPLE = [1, 2, 3, 1, 2, 1, 4, 5]
SAMPLES = ([1], [1, 1], [3, 1, 4], [2], [1, 2], [3, 4, 5], [1, 2, 4, 1, 1], SAMPLE, [0], [])
"""Rows of document 01 for grammar K."""

NOT_AXIOM = [2, 2, 1, 2, 6, 10, 0, 257, 2, 257, 1, 1]
"""Document 01's words whose row 1 is refused with 19."""


def finish(row, spare=0):
    """The report of a finished row, and then the one-call parse in the same area: the same words, or the same refusal."""
    entries = len(row.state.reductions)
    said = row.report(3 * entries + spare)
    reported = list(row.out)
    parsed = row.parse(3 * entries + spare)
    if said[0] == 0 and (parsed[:2] != said[:2] or row.out != reported):
        raise AssertionError("the report of the chunks is not that of the parse")
    if 17 <= said[0] <= 20 and parsed[:2] != said[:2]:
        raise AssertionError("the refusal of the chunks is not that of the parse")
    return said


def whole_case(row, schedule, show_started=False, show_finished=False):
    """A row started, brought to its end by a schedule, and its report shown; the one-call parse where the start is refused."""
    if row.start()[0] == 0:
        if show_started:
            row.show_area()
        schedule(row)
        if show_finished:
            row.show_area()
        said = finish(row)
        if said[0] == 0:
            row.show_report(3 * said[1])
    else:
        row.parse(0)
    return row.case()


# Schedules to the end.


def by_steps(row):
    """One move of each chunk in turn, then joins from the right, moves again after each."""
    while any(call[0] == "run" for call in allowed(row.state)):
        for kind, c in allowed(row.state):
            if kind == "run":
                row.step(c)
    while len(row.state.live) > 1:
        c = row.state.live[-2]
        row.join(c)
        while not row.state.chunks[c].at_rest:
            row.step(c)


def by_runs(row, budget):
    """Each chunk from the last to the first by runs, then joins wherever they can be made."""
    while allowed(row.state):
        kind, c = allowed(row.state)[-1]
        if kind == "run":
            row.run(c, budget)
        else:
            row.join(c)


SCHEDULES = (lambda row: row.to_end(), by_steps, lambda row: by_runs(row, 1), lambda row: by_runs(row, 3),
             lambda row: by_runs(row, GREATEST))


def samples():
    """Document 01's rows, uncut and with every cut, by several schedules; the words of the area for the smallest."""
    for words, tokens in [(grammar.words_of(*K), row) for row in SAMPLES] + [(NOT_AXIOM, [1])]:
        group = Group(words)
        yield group.given, group.wanted
        for cuts in [[]] + [[cut] for cut in range(len(tokens) + 1)] + [[0, 0], [len(tokens)] * 2]:
            for number, schedule in enumerate(SCHEDULES):
                row = Row(group, tokens, cuts)
                yield whole_case(row, schedule, len(tokens) < 6, len(tokens) < 9 and number == 0)


def report_rooms():
    """The eight tokens cut at 4: a report's run exactly as long as needed, one word short, empty, and longer."""
    group = Group(grammar.words_of(*K))
    yield group.given, group.wanted
    row = Row(group, SAMPLE, [4], room=area_need(8, 2) + 4)
    row.start()
    row.report(18)
    row.to_end()
    for room in (18, 17, 0, 1, 19, 30):
        row.report(room)
        row.show_report(room)
    row.keep()
    for room in (18, 17, 0, 19, 30):
        row.again()
        row.parse(room)
        row.show_report(room)
    yield row.case()
    for room in (area_need(8, 1) - 1, area_need(8, 1), area_need(8, 1) + 3, 0):
        row = Row(group, SAMPLE, [], room=room)
        row.parse(18)
        row.show_area()
        row.parse(17)
        yield row.case()


# An area damaged in every word.

STATUSES = (5, 10, 15)
"""The words of an area that hold the status of chunks 0, 1 and 2."""


def middles(group):
    """Rows in the middle: one call made after another, so that chunks are running, stuck, joined and gone."""
    row = Row(group, SAMPLE, [4])
    row.start()
    for c, budget in ((0, 3), (1, 4)):
        row.run(c, budget)
    yield row
    row = Row(group, SAMPLE, [2, 5])
    row.start()
    for c in (0, 1, 2):
        row.run(c, GREATEST)
    row.join(1)
    yield row
    row = Row(group, [1, 2, 4, 1, 1], [3])
    row.start()
    row.to_end()
    yield row
    row = Row(group, SAMPLE, [4])
    row.start()
    row.to_end()
    yield row


def calls_on(row, number):
    """One call of each kind."""
    if number == 0:
        row.step(0)
    elif number == 1:
        row.run(1, 2)
    elif number == 2:
        row.join(0)
    else:
        row.report(18)


def damaged_areas():
    """Each word of an area in the middle of a row changed, one at a time, to several values: each call answers 15 and changes
    nothing, or makes the move of the state that the words now are."""
    group = Group(grammar.words_of(*K))
    yield group.given, group.wanted
    for row in middles(group):
        row.show_area()
        row.keep()
        for at, word in enumerate(row.kept):
            values = {0, word - 1, word + 1, 256, 65535}
            if at in STATUSES:
                values |= {1, 16, 17, 18, 19, 20, 21}
            for value in sorted(values - {word, -1, 65536}):
                for number in range(4):
                    row.again()
                    row.change(at, value)
                    calls_on(row, number)
        yield row.case()


def each_value(row, change, at, right, values):
    """Every call under each other value in one place of the table, and a start; then the right value again."""
    for value in sorted(values - {right}):
        for number in range(4):
            row.again()
            change(at, value)
            calls_on(row, number)
        row.start()
        change(at, right)


def damaged_tables():
    """Bytes of the matrix and words of the grammar changed under a row in the middle: 15, or the move by the table as it now is."""
    group = Group(grammar.words_of(*K))
    yield group.given, group.wanted
    row = next(middles(group))
    row.keep()
    for at in [*range(0, 12), *range(64, 72), 128, 130, 192, 193, 325, 330, 4032, 4095]:
        each_value(row, row.change_matrix, at, group.matrix[at], {0, 1, 2, 3, 4, 255})
    for at, word in enumerate(list(group.words)):
        each_value(row, row.change_grammar, at, word, {0, 1, 5, 63, 64, 256, 258, 65535})
    yield row.case()


# Random schedules.


def wrong_call(rng, row):
    """A call that may be refused."""
    c = rng.choice((0, 1, 2, len(row.cuts), len(row.cuts) + 1, 63, 64, 4095))
    way = rng.randrange(4)
    if way == 0:
        row.step(c)
    elif way == 1:
        row.run(c, rng.choice((0, 1, 5)))
    elif way == 2:
        row.join(c)
    else:
        row.report(rng.choice((0, 3, 30)))


def random_schedule(rng, row):
    """Calls at random until the row is finished, some of them refused."""
    choose = leaning(rng)
    longest = rng.choice((1, 2, 4, 16, GREATEST))
    while True:
        calls = allowed(row.state)
        if not calls:
            return
        if rng.random() < 0.06:
            wrong_call(rng, row)
            continue
        kind, c = choose(calls)
        if kind == "join":
            row.join(c)
        elif rng.random() < 0.3:
            row.step(c)
        else:
            row.run(c, GREATEST if longest == GREATEST else rng.randint(0 if longest > 1 else 1, longest))


def damage_once(rng, row):
    """One word of the area changed, each kind of call on it, and the word put back; the calls may have made moves."""
    row.keep()
    for number in range(4):
        row.change(rng.randrange(len(row.area)), rng.choice((0, 1, 2, 3, 17, 18, 256, 257, 65535)))
        calls_on(row, number)
        row.again()


def random_rows(rng, groups, most):
    """Random grammars; under each that loads some rows with random cuts and schedules, finished and parsed in one call."""
    for _ in range(groups):
        group = Group(random_grammar(rng))
        while not group.loaded:
            group = Group(random_grammar(rng))
        yield group.given, group.wanted
        read = grammar.read(group.words)
        for _ in range(6):
            tokens = random_row(rng, read, rng.choice((4, 8, 8, 16)))[:most]
            cuts = random_cuts(rng, len(tokens), rng.choice((0, 1, 2, 4, 8)))
            row = Row(group, tokens, cuts, area_need(len(tokens), len(cuts) + 1) + rng.choice((0, 0, 2)), aloud=False)
            row.start()
            random_schedule(rng, row)
            if rng.random() < 0.1:
                damage_once(rng, row)
            finish(row, rng.choice((0, 0, 0, 1, 5)))
            yield row.case()


def random_starts(rng, count):
    """Random grammars, some damaged, with rows, cuts and areas that may be refused: start and the one-call parse."""
    for _ in range(count):
        words = random_grammar(rng)
        group = Group(damaged(rng, words) if rng.random() < 0.4 else words)
        yield group.given, group.wanted
        for _ in range(3):
            try:
                tokens = random_row(rng, grammar.read(group.words), rng.choice((4, 8)))[:30]
            except Refused:
                tokens = [1, 2]
            cuts = random_cuts(rng, len(tokens), rng.choice((0, 1, 3)))
            if rng.random() < 0.4 and cuts:
                cuts[rng.randrange(len(cuts))] = rng.randrange(60)
            if rng.random() < 0.3 and tokens:
                tokens[rng.randrange(len(tokens))] = rng.choice((0, 1, 5, 64, 65535))
            room = area_need(len(tokens), len(cuts) + 1) + rng.choice((0, 0, 0, 3, -1, -6))
            row = Row(group, tokens, cuts, room)
            if row.start()[0] == 0:
                row.to_end()
                row.report(3 * len(tokens))
            row.parse(rng.choice((0, 3, 3 * len(tokens))))
            yield row.case()


# Rows at the limits.


def comma_list(n):
    """Single stitches parted by commas, n tokens."""
    return [1 + i % 2 for i in range(n)]


def nested(depth):
    """One stitch in brackets, so deep."""
    return [3] * depth + [1] + [4, 5] * depth


def even_cuts(n, chunks):
    """Cuts into so many chunks of about one size."""
    return [n * c // chunks for c in range(1, chunks)]


def long_rows():
    """The longest comma list and the deepest brackets by one call, uncut by moves, in two, and in 64; and refused ones: the first
    token too many, 64 cuts, a stitch too many at the end."""
    group = Group(grammar.words_of(*K))
    yield group.given, group.wanted
    for tokens in (comma_list(16383), nested(5461), comma_list(16382), comma_list(16381) + [1, 1], nested(5461)[:-1]):
        for chunks in (1, 2, 64):
            row = Row(group, tokens, even_cuts(len(tokens), chunks), aloud=True)
            row.start()
            row.to_end()
            finish(row)
            yield row.case()
    for tokens, cuts in ((comma_list(16384), [16384] * 63), (comma_list(16385), []), (comma_list(16384), [0] * 64),
                         (SAMPLE, list(range(8)) * 8), (SAMPLE, [0, 0, 8, 8]), (SAMPLE, [4, 3]), (SAMPLE, [9]), (SAMPLE, [0] * 63)):
        row = Row(group, tokens, cuts, room=115100)
        if row.start()[0] == 0:
            row.to_end()
            row.report(49152)
        row.parse(49152)
        yield row.case()


def empty_chunks():
    """63 cuts, most of them equal, at the ends and in the middle, run front to back and back to front."""
    group = Group(grammar.words_of(*K))
    yield group.given, group.wanted
    for cuts in ([0] * 63, [8] * 63, [4] * 63, [0] * 30 + [8] * 33, sorted([i % 9 for i in range(63)])):
        for schedule in SCHEDULES:
            row = Row(group, SAMPLE, cuts, aloud=False)
            row.start()
            schedule(row)
            finish(row)
            yield row.case()


# Entries.


def entries_case(tokens, run, entries):
    """The tokens of some entries of a report's run."""
    given = [7, *run_words(tokens), *run_words(run), len(entries)]
    wanted = []
    for entry in entries:
        given += wide(entry)
        part = entry_tokens(tokens, run, entry)[1]
        wanted.append(line([len(part), *part]))
    return given, "".join(wanted)


def entries():
    """Tokens that tell their places apart: entries that stand, that are empty, beyond the run, cut off by its end, with the second
    word above the third, and with the third above the token count."""
    tokens = list(range(100, 108))
    sample = [0, 0, 1, 0, 3, 4, 0, 5, 6, 3, 3, 6, 2, 2, 8, 3, 0, 8]
    every = [*range(7), 65535, 65536, 4294967295, 1431655765, 1431655766]
    yield entries_case(tokens, sample, every)
    yield entries_case(tokens, sample[:-1], every)
    yield entries_case(tokens, [7, 0, 0, 7, 8, 8, 7, 4, 4, 7, 5, 4, 7, 8, 0, 7, 0, 9, 7, 8, 9, 7, 65535, 65535, 7, 0, 65535], range(10))
    yield entries_case([], [7, 0, 0, 7, 0, 1, 7, 1, 0], range(4))
    yield entries_case(tokens, [], [0, 1])
    yield entries_case(tokens, [1, 2], [0])


def cases(rng):
    """All of them, each as (words given, text wanted)."""
    yield from samples()
    yield from report_rooms()
    yield from damaged_areas()
    yield from damaged_tables()
    yield from random_rows(rng, 400, 40)
    yield from random_starts(rng, 100)
    yield from long_rows()
    yield from empty_chunks()
    yield from entries()
