"""Cases of load and of the sets: K and a dozen grammars whole; prefixes of K and single words of K changed; grammars at the limits;
random and damaged words."""

from grugalash_reference import grammar, matrix, sets
from grugalash_reference.refusal import Refused
from random_rows import K, nt, random_grammar

from .stream import line, run_words, sum_of

BYTES = 5000


class Group:
    """A grammar's words, under which cases stand, and the matrix that load makes of them in 4,096 bytes that were 0."""

    def __init__(self, words):
        self.words = list(words)
        self.matrix = bytearray(4096)
        self.given = [6, *run_words(words)]
        numbers = load_answer(self.words, self.matrix)
        self.loaded = numbers == [0, 0]
        self.wanted = line([*numbers, sum_of(self.matrix)])


def load_answer(words, run):
    """Number and value of load's answer."""
    try:
        matrix.load(words, run)
    except Refused as refused:
        return [refused.number, refused.value]
    return [0, 0]


def load_case(group, room, whole):
    """Load into the first `room` bytes of a run of sevens; all its bytes that are not 0 where `whole`."""
    run = bytearray([7] * BYTES)
    part = run[:room]
    numbers = load_answer(group.words, part)
    run[:room] = part
    numbers.append(sum_of(run))
    if whole:
        for place, byte in enumerate(run[:room]):
            if byte:
                numbers += [place, byte]
    return [1 if whole else 0, room], line(numbers)


def set_case(group, k, side):
    """The left or the right set of nonterminal k."""
    try:
        mask, size = sets.set_asked(group.words, side, k)
        numbers = [0, mask, size]
    except Refused as refused:
        numbers = [refused.number, refused.value, 0]
    return [2 if side == "left" else 3, k], line(numbers)


def damaged(rng, words):
    """The words with one changed, one lost, one more, or cut short."""
    words = list(words)
    way = rng.randrange(4)
    at = rng.randrange(len(words))
    if way == 0:
        words[at] = rng.choice((0, 1, 2, 5, 63, 64, 65, 255, 256, 257, 512, 65535, rng.randrange(65536)))
    elif way == 1:
        del words[at]
    elif way == 2:
        words.insert(at, rng.choice((0, 1, 256, rng.randrange(600))))
    else:
        words = words[:at]
    return words


def many_rules(R):
    """R rules: each terminal alone, and then pairs of terminals."""
    singles = [(0, (t,)) for t in range(1, 64)]
    pairs = [(1, (a, b)) for a in range(1, 64) for b in range(1, 64)]
    return grammar.words_of(63, 2, 2, (singles + pairs)[:R])


def long_rules():
    """256 rules with right sides of eight terminals: the most words that a grammar can have."""
    return grammar.words_of(63, 64, 64, [(i % 64, (1, 2, 3, 4, 5, 6, 1 + i // 63, 1 + i % 63)) for i in range(256)])


def limits():
    """Words at the limits of the head, and the least conflict of document 01."""
    yield many_rules(256)
    yield many_rules(257)
    yield long_rules()
    yield long_rules() + [1]
    yield grammar.words_of(5, 2, 2, K[3] + [(1, (nt(0), 2, nt(1)))])
    for head in ([0, 1, 1, 1], [63, 64, 64, 256], [64, 1, 1, 1], [1, 65, 1, 1], [1, 0, 1, 1], [1, 1, 2, 1], [1, 1, 0, 1],
                 [1, 1, 1, 0], [1, 1, 1, 257], [65535] * 40, [], [5]):
        yield head


def cases(rng):
    """Groups and the cases under them, each as (words given, text wanted)."""

    def group(words, *asked):
        one = Group(words)
        yield one.given, one.wanted
        for make, *how in asked:
            yield make(one, *how)

    k = grammar.words_of(*K)
    every_set = [(set_case, number, side) for number in range(4) for side in ("left", "right")]
    for words in [k] + [random_grammar(rng) for _ in range(14)]:
        yield from group(words, (load_case, 4096, True), *every_set)
    yield from group(k, *[(load_case, room, True) for room in (0, 4095, 4096, 5000)])
    for end in range(len(k)):
        yield from group(k[:end], (set_case, 0, "left"))
    for at in range(len(k)):
        for value in (0, 64, 255, 256, 257, 512, 65535):
            yield from group(k[:at] + [value] + k[at + 1:])
    for words in limits():
        yield from group(words, (load_case, 4096, False), (set_case, 63, "right"), (set_case, 64, "right"))
    for _ in range(1000):
        words = random_grammar(rng)
        if rng.random() < 0.6:
            words = damaged(rng, words)
        yield from group(words, (set_case, rng.randrange(66) if rng.random() < 0.2 else rng.randrange(4), rng.choice(("left", "right"))))
