"""Every sample of document 01 ("Sample rows"), and the corners of its refusal table."""

from grugalash_reference import chunks, grammar, matrix, moves, parse, report, rows_text, sets
from grugalash_reference.derivation import Derivations
from grugalash_reference.grammar import words_of
from random_rows import K, nt

from .expect import COUNTS, answer_of, expect, refused, same

K_WORDS = [5, 2, 2, 5, 9, 11, 16, 21, 25,
           0, 1, 0, 3, 256, 4, 5, 0, 3, 257, 4, 5, 1, 256, 2, 256, 1, 257, 2, 256]
NOT_AXIOM_WORDS = [2, 2, 1, 2, 6, 10, 0, 257, 2, 257, 1, 1]
EIGHT = [1, 2, 3, 1, 2, 1, 4, 5]
EIGHT_REPORT = [0, 0, 1, 0, 3, 4, 0, 5, 6, 3, 3, 6, 2, 2, 8, 3, 0, 8]


def loaded(words):
    """Grammar and matrix of words that load accepts."""
    run = bytearray(matrix.MATRIX_BYTES)
    same(answer_of(matrix.load, words, run), (0, 0), "load refuses", words=words)
    return grammar.read(words), bytes(run)


def text(*lines):
    """Lines of numbers as the text that `rows` reads."""
    return "".join(" ".join(map(str, line)) + "\n" for line in lines).encode("ascii")


def parsed(words, tokens):
    """The one-call parse with room for everything: (report words, moves), or its refusal."""
    run = [7] * (3 * len(tokens) + 3)
    got = answer_of(parse.parse, words, tokens, [9] * chunks.area_need(len(tokens), 1), run)
    if got[0] == "refused":
        return got
    expect(run[3 * got[0]:] == [7] * (len(run) - 3 * got[0]), "report past its end", tokens=tokens)
    return run[:3 * got[0]], got[1]


def row_sample(words, tokens, cuts, wanted_lines):
    """A row through `rows`, and uncut through the one-call parse and the derivations."""
    written = rows_text.rows(text(words, tokens, cuts)).decode("ascii")
    same(written.splitlines(), wanted_lines, "another answer", tokens=tokens, cuts=cuts)
    got = parsed(words, tokens)
    trees = list(Derivations(grammar.read(words), tokens).trees())
    if wanted_lines[0].startswith("parse"):
        wanted = [int(word) for line in wanted_lines[1:] for word in line.split()]
        same(got[0], wanted, "another report", tokens=tokens)
        same([word for tree in trees for one in tree for word in one], wanted, "another tree", tokens=tokens)
        if not cuts:
            same(got[1], int(wanted_lines[0].split()[3]), "another count of moves", tokens=tokens)
    else:
        same(" ".join(map(str, got)), wanted_lines[0], "another refusal", tokens=tokens)
        same(trees, [], "a refused row is derived", tokens=tokens)
    COUNTS["samples"] += 1


def starred():
    """The starred cases, the proved set."""
    same(words_of(*K), K_WORDS, "grammar K")
    asked = [sets.set_asked(K_WORDS, side, k) for side in ("left", "right") for k in (0, 1)]
    same(asked, [(10, 2), (14, 3), (34, 2), (38, 3)], "sets of K")
    row_sample(K_WORDS, [1], [], ["parse 1 1 3", "0 0 1"])
    row_sample(K_WORDS, [1, 1], [], ["refused 17 1"])
    row_sample(K_WORDS, [3, 1, 4], [], ["refused 17 3"])
    row_sample(K_WORDS, [2], [], ["refused 18 1"])
    row_sample(K_WORDS, [1, 2], [], ["refused 18 2"])
    row_sample(K_WORDS, [3, 4, 5], [], ["refused 18 3"])
    row_sample(K_WORDS, [1, 2, 4, 1, 1], [3], ["refused 18 2"])
    later_chunk_rests()
    sixth = words_of(5, 2, 2, K[3] + [(1, (nt(0), 2, nt(1)))])
    refused(6, 130, matrix.load, sixth, bytearray(4096))
    row_sample(NOT_AXIOM_WORDS, [1], [], ["refused 19 1"])
    refused(9, 0, parse.parse, K_WORDS, [0], [0] * 999, [0] * 999)
    refused(7, 0, parse.parse, K_WORDS, [], [0] * 999, [0] * 999)


def later_chunk_rests():
    """1 2 4 1 1, cut at 3: "chunk 1 rests on 17 at 4"."""
    read, table = loaded(K_WORDS)
    state = chunks.start(K_WORDS, table, [1, 2, 4, 1, 1], [3], 999)
    for c in (0, 1):
        rows_text.to_rest(read, table, state, c)
    at = [(state.chunks[c].stuck, state.chunks[c].place) for c in (0, 1)]
    same(at, [(18, 2), (17, 4)], "where the chunks rest")


def sizes():
    """The unstarred samples: greatest numbers and lengths."""
    refused(1, 3, grammar.check, [5, 2, 2, 257])
    refused(2, 0, grammar.check, [5, 2, 2, 256])
    read, table = loaded(K_WORDS)
    start = chunks.start
    same(start(K_WORDS, table, [1] * 16384, [], 1 << 20).n, 16384, "16,384 tokens")
    refused(8, 0, start, K_WORDS, table, [1] * 16385, [], 1 << 20)
    refused(10, 63, start, K_WORDS, table, [1], [0] * 64, 1 << 20)
    same(len(start(K_WORDS, table, [1], [0] * 63, 1 << 20).chunks), 64, "63 cuts")
    state = parse.front_to_back(read, table, [1, 2] * 8191 + [1])
    same(len(state.reductions), 8192 + 8191, "a long row")
    same(state.finished and state.chunks[0].stuck, 0, "a long row")
    same(state.moves, 16383 + 8192 + 8191 + 1, "moves of a long row")


def eight_tokens():
    """1 2 3 1 2 1 4 5, cut at 4 and uncut."""
    lines = ["0 0 1", "0 3 4", "0 5 6", "3 3 6", "2 2 8", "3 0 8"]
    row_sample(K_WORDS, EIGHT, [4], ["parse 8 2 21", *lines])
    row_sample(K_WORDS, EIGHT, [], ["parse 8 1 15", *lines])


HEADS = {
    (): 0, (5,): 1, (5, 2): 2, (5, 2, 2): 3, (5, 64): 2, (65535,): 0,
    (0, 0, 0, 0): 0, (64, 2, 2, 5): 0, (63, 0, 1, 1): 1, (63, 65, 65, 1): 1,
    (63, 64, 65, 1): 2, (5, 2, 0, 5): 2, (5, 2, 3, 5): 2, (5, 2, 2, 0): 3,
}
"""Words refused with 1, and the value."""

ONE_WORD = (
    (4, 8, 2, 0), (4, 10, 2, 0), (5, 9, 2, 1), (5, 10, 2, 1), (5, 19, 2, 1), (8, 20, 2, 4),
    (8, 31, 2, 4), (8, 30, 2, 5), (8, 28, 2, 5), (5, 12, 3, 11), (8, 27, 3, 27),
    (9, 2, 3, 9), (10, 0, 3, 10), (10, 6, 3, 10), (10, 255, 3, 10), (10, 258, 3, 10),
    (28, 258, 3, 28), (10, 256, 4, 0), (14, 257, 4, 1), (13, 257, 5, 2),
)
"""Grammar K with one word changed: word place, new word, refusal number, value."""

RULES = (
    (1, 1, 1, [(0, (0, 257)), (1, (2,))], 3, 7),
    (1, 1, 1, [(0, (256,)), (0, (2,))], 3, 9),
    (1, 1, 1, [(0, (1,)), (0, (1,)), (0, (256,))], 4, 2),
    (1, 1, 1, [(0, (1,)), (0, (1, 256, 256)), (0, (1,))], 4, 1),
    (2, 2, 1, [(0, (1,)), (0, (2,)), (1, (2,)), (1, (1,))], 5, 2),
)
"""T, N, A, rules that break several checks: each goes over the whole grammar first."""


def words_refused():
    """Refusals 1 to 5: absent words, absent entries, R for the last body, the first
    of several; and every refusal of load comes alike from a set asked and a parse."""
    cases = [(list(words), 1, value) for words, value in HEADS.items()]
    cases += [(K_WORDS[:4 + R], 2, R) for R in range(5)]
    cases += [(K_WORDS[:length], 2, 5) for length in (9, 20, 25, 26)]
    cases += [(K_WORDS + [1] * 6, 2, 5), (K_WORDS[:27], 4, 4)]
    cases += [(K_WORDS[:place] + [word] + K_WORDS[place + 1:], number, value)
              for place, word, number, value in ONE_WORD]
    cases += [(words_of(T, N, A, rules), number, value) for T, N, A, rules, number, value in RULES]
    for words, number, value in cases:
        refused(number, value, grammar.check, words)
        refused(number, value, matrix.load, words, bytearray())
        refused(number, value, sets.set_asked, words, "left", 999)
        refused(number, value, parse.parse, words, [], [], [])
    same(answer_of(grammar.check, K_WORDS + [2, 256, 2, 256, 2]), None, "a last body of 9 words")
    largest = words_of(63, 64, 64, [(r % 64, (1 + r % 63, 1 + r // 63) * 4) for r in range(256)])
    same((len(largest), answer_of(grammar.check, largest)), (2564, None), "the largest grammar")
    refused(2, 256, grammar.check, largest + [1])


def load_and_sets():
    """Refusals 6, 11 and 21, and what load leaves of a longer run."""
    run = bytearray(b"x" * 4100)
    same(matrix.load(K_WORDS, run), (0, 0), "load")
    same(bytes(run[4096:]), b"xxxx", "bytes past the matrix")
    used = {(a, b): run[64 * a + b] for a in range(64) for b in range(64) if run[64 * a + b]}
    same(used, K_RELATIONS, "matrix of K")
    short = bytearray(b"x" * 4095)
    refused(11, 4096, matrix.load, K_WORDS, short)
    same(bytes(short), b"x" * 4095, "a refused load writes")
    refused(21, 0, sets.set_asked, K_WORDS, "left", 2)
    refused(21, 0, sets.set_asked, K_WORDS, "right", 65535)
    conflict = words_of(2, 1, 1, [(0, (1, nt(0))), (0, (nt(0), 2)), (0, (2, 1, 2)), (0, (1,))])
    refused(6, 64 + 2, matrix.load, conflict, bytearray())
    same(sets.set_asked(conflict, "left", 0), (6, 2), "a set of a grammar with a conflict")


K_RELATIONS = {
    (0, 0): 2, (0, 1): 1, (0, 2): 1, (0, 3): 1, (1, 0): 3, (2, 0): 3, (5, 0): 3,
    (1, 2): 3, (1, 4): 3, (2, 1): 1, (2, 2): 3, (2, 3): 1, (2, 4): 3,
    (3, 1): 1, (3, 2): 1, (3, 3): 1, (3, 4): 2, (4, 5): 2, (5, 2): 3, (5, 4): 3,
}
"""The matrix of K, worked out by hand from the definitions."""


def starts_refused():
    """Refusals 15 and 7 to 11 of start, in that order."""
    _, table = loaded(K_WORDS)
    never, always = (lambda words, matrix: False), (lambda words, matrix: True)
    start = chunks.start
    refused(15, 0, start, K_WORDS, table, [], [9], 0, never)
    refused(7, 0, start, K_WORDS, table, [], [9], 0, always)
    refused(9, 2, start, K_WORDS, table, [1, 5, 6, 0], [9], 0)
    refused(8, 0, start, K_WORDS, table, [0] * 16385, [9], 0)
    refused(10, 0, start, K_WORDS, table, [1, 1], [3], 0)
    refused(10, 1, start, K_WORDS, table, [1, 1], [2, 1, 3], 0)
    refused(10, 2, start, K_WORDS, table, [1, 1], [1, 1, 0], 0)
    refused(10, 63, start, K_WORDS, table, [1, 1], [9] * 64, 0)
    refused(11, 7 * 2 + 5 * 3 + 13, start, K_WORDS, table, [1, 1], [1, 2], 41)
    same(len(start(K_WORDS, table, [1, 1], [1, 2], 42).chunks), 3, "just enough room")
    for n in (1, 16384):
        for C in (1, 64):
            expect(chunks.area_need(n, C) <= 16 * (n + 1) + 16 * C + 64, "room", n=n, C=C)


def calls_refused():
    """Refusals 12, 13, 14 and 16, in the order of each call, with value 0; K = 0."""
    read, table = loaded(K_WORDS)
    state = chunks.start(K_WORDS, table, EIGHT, [4, 4], 999)
    before = state.copy()
    for c in (3, 64, 65535):
        refused(12, 0, moves.step, read, table, state, c)
        refused(12, 0, moves.run, read, table, state, c, 0)
        refused(12, 0, moves.join, state, c)
    refused(13, 0, moves.step, read, table, state, 1)
    refused(13, 0, moves.run, read, table, state, 1, 0)
    refused(14, 0, moves.join, state, 0)
    refused(14, 0, moves.join, state, 1)
    refused(14, 0, moves.join, state, 2)
    refused(16, 0, report.report, state, [])
    same(moves.run(read, table, state, 0, 0), 0, "K = 0 on a running chunk")
    same(state, before, "a refused call changes the state")
    same(moves.run(read, table, state, 0, 3), 3, "K = 3")
    moved = moves.run(read, table, state, 2, 65535) + moves.run(read, table, state, 0, 65535)
    same(moves.join(state, 0), (0, 0), "an empty chunk is joined")
    refused(12, 0, moves.step, read, table, state, 1)
    moves.join(state, 0)
    refused(16, 0, report.report, state, [])
    moved += moves.run(read, table, state, 0, 65535)
    same(state.moves, 3 + moved + 2, "moves, joins included")
    refused(14, 0, moves.join, state, 0)
    refused(13, 0, moves.step, read, table, state, 0)
    run = [7] * 17
    refused(11, 18, report.report, state, run)
    same(run, [7] * 17, "a refused report writes")
    run = [7] * 20
    same(report.report(state, run), (6, state.moves), "the report's answer")
    same(run, EIGHT_REPORT + [7, 7], "the report")


def parse_refused():
    """The one-call parse: its order of checks, and what it leaves of its buffers."""
    call = parse.parse
    refused(6, 130, call, words_of(5, 2, 2, K[3] + [(1, (nt(0), 2, nt(1)))]), [], [], [])
    refused(7, 0, call, K_WORDS, [], [], [])
    refused(8, 0, call, K_WORDS, [0] * 16385, [], [])
    refused(9, 1, call, K_WORDS, [1, 6], [], [])
    area = [9] * 24
    refused(11, 25, call, K_WORDS, [1], area, [])
    same(area, [9] * 24, "an area too short is written")
    for tokens, wanted in (([1], (11, 3)), ([2], (18, 1))):
        area = [9] * 27
        refused(*wanted, call, K_WORDS, tokens, area, [1, 1])
        same(area, [0] * 25 + [9, 9], "the area after a parse", tokens=tokens)
    area, run = [9] * 27, [9] * 5
    same(call(K_WORDS, [1], area, run), (1, 3), "the parse's answer")
    same((area, run), ([0] * 25 + [9, 9], [0, 0, 1, 9, 9]), "the buffers after a parse")


def entries():
    """The tokens of one report entry."""
    ask = report.entry_tokens
    same(ask(EIGHT, EIGHT_REPORT, 4), (2, [3, 1, 2, 1, 4, 5]), "an entry")
    same(ask(EIGHT, EIGHT_REPORT, 5), (0, EIGHT), "the whole row")
    same(ask(EIGHT, EIGHT_REPORT, 6), (0, []), "no such entry")
    same(ask(EIGHT, EIGHT_REPORT[:17], 5), (0, []), "an entry not wholly in the run")
    same(ask(EIGHT, [0, 3, 2], 0), (0, []), "second word above third")
    same(ask(EIGHT, [0, 3, 9], 0), (0, []), "third word above the token count")
    same(ask(EIGHT, [0, 3, 3], 0), (3, []), "an empty part")
    same(ask(EIGHT, [0, 8, 8], 0), (8, []), "the empty part at the end")
    same(ask([], [], 65535), (0, []), "nothing at all")


def equal_spans():
    """The report's order with equal third words and with equal spans."""
    done = [chunks.Reduction(*one) for one in ((5, 2, 4), (1, 3, 4), (2, 2, 4), (0, 0, 9), (4, 3, 3))]
    wanted = [(4, 3, 3), (1, 3, 4), (2, 2, 4), (5, 2, 4), (0, 0, 9)]
    same(report.in_order(done), wanted, "the order of the report")


def row_texts():
    """The text of `rows`: bad lines, empty lines, what is not read, the buffers."""
    grammar_line = " ".join(map(str, K_WORDS)).encode("ascii")
    one = b"parse 1 1 3\n0 0 1\n"
    cases = [
        (grammar_line + b"\n1\n\n", one),
        (grammar_line + b"\n1\n\nx 99999", one),
        (grammar_line + b"\n0000000001\n\n", one),
        (grammar_line + b"\n" + b"0" * 5000 + b"1\n\n", one),
        (b"\n\n\n", b"refused 1 0\n"),
        (b"\n1\n99\n", b"refused 1 0\n"),
        (grammar_line + b"\n\n\n", b"refused 7 0\n"),
        (grammar_line + b"\n\n7\n", b"refused 7 0\n"),
        (grammar_line + b"\n1 6\n\n", b"refused 9 1\n"),
        (grammar_line + b"\n1\n2\n", b"refused 10 0\n"),
        (grammar_line + b"\n1\n" + b"0 " * 63 + b"0\n", b"refused 10 63\n"),
        (grammar_line + b"\n1\n" + b"0 " * 64 + b"0\n", b"text 3\n"),
        (grammar_line + b"\n" + b"1 " * 1023 + b"1\n\n", b"refused 17 1\n"),
        (grammar_line + b"\n" + b"1 " * 1024 + b"1\n\n", b"text 2\n"),
        (b"1 " * 2563 + b"1\n1\n\n", b"refused 2 0\n"),
        (b"1 " * 2564 + b"1\n1\n\n", b"text 1\n"),
        (b"65535\n1\n\n", b"refused 1 0\n"),
        (b"65536\n1\n\n", b"text 1\n"),
        (b"", b"text 1\n"),
        (b"5", b"text 1\n"),
        (b"5\n", b"text 2\n"),
        (b"5\n1\n", b"text 3\n"),
        (grammar_line + b"\n1\n0", b"text 3\n"),
        (grammar_line + b"\nx\n", b"text 2\n"),
        (b"x\ny\nz\n", b"text 1\n"),
        (b"0\ny\nz\n", b"text 2\n"),
    ]
    for bad in (b" 1", b"1 ", b"1  1", b" ", b"-1", b"+1", b"1,1", b"1\t1", b"1\r", b"\xff", b"100000",
                b"1 0x1", b"\x00"):
        cases.append((bad + b"\n1\n\n", b"text 1\n"))
        cases.append((grammar_line + b"\n" + bad + b"\n\n", b"text 2\n"))
        cases.append((grammar_line + b"\n1\n" + bad + b"\n", b"text 3\n"))
        cases.append((b"0\n" + bad, b"text 2\n"))
    for given, wanted in cases:
        same(rows_text.rows(given), wanted, "what `rows` writes", given=given[-60:])
        COUNTS["texts"] += 1


def all_samples():
    """All the fixed cases."""
    for case in (starred, sizes, eight_tokens, words_refused, load_and_sets, starts_refused,
                 calls_refused, parse_refused, entries, equal_spans, row_texts):
        case()
