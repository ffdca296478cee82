"""The vectors: the same seed gives the same cases, and they meet every kind of answer."""

import make_vectors
from grugalash_reference.grammar import words_of
from random_rows import K, nt

from .expect import COUNTS, expect, same
from .samples import K_WORDS


def seeded_cases():
    """Cases of one seed twice, of another, and the kinds of answer among them."""
    cases = make_vectors.rows_cases("1", 300)
    same(make_vectors.rows_cases("1", 300), cases, "the same seed gives other cases")
    expect(make_vectors.rows_cases("2", 300) != cases, "another seed gives the same cases")
    kinds = {tuple(wanted.split()[:2 if wanted.startswith(b"refused") else 1]) for _, wanted in cases}
    for kind in ((b"parse",), (b"text",), *((b"refused", b"%d" % n) for n in (3, 4, 5, 6, 9, 10, 17, 18))):
        expect(kind in kinds, "a kind of answer is missing", kind=kind, kinds=kinds)
    COUNTS["vectors"] += len(cases)


def printed_matrix():
    """The printed sets and matrix of K, and of K with its sixth rule."""
    wanted = ["left 0 10 2", "right 0 34 2", "left 1 14 3", "right 1 38 3", "matrix",
              "2 1 1 1 0 0", "3 0 3 0 3 0", "3 1 3 1 3 0", "0 1 1 1 2 0", "0 0 0 0 0 2", "3 0 3 0 3 0"]
    same(make_vectors.sets_and_matrix(K_WORDS), wanted, "sets and matrix of K")
    sixth = words_of(5, 2, 2, K[3] + [(1, (nt(0), 2, nt(1)))])
    same(make_vectors.sets_and_matrix(sixth)[-1], "refused 6 130", "K with a sixth rule")
    same(make_vectors.sets_and_matrix([]), ["refused 1 0"], "no words")
