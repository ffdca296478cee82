"""Make vectors from the reference reader.

    python3 tools/make_vectors.py matrix < WORDS
        the sets and the matrix of the grammar words on standard input
    python3 tools/make_vectors.py rows SEED COUNT FOLDER
        COUNT cases for the program `rows`, as FOLDER/0000.in and FOLDER/0000.out
        and so on: what it reads and what it must write

`PROGRAMS` names, for each program, the function from seed and count to its
cases, each a pair (standard input, standard output) of bytes.  The same seed
and number always give the same case.
"""

import random
import sys
from pathlib import Path

sys.dont_write_bytecode = True

from grugalash_reference import grammar, matrix, rows_text, sets  # noqa: E402
from grugalash_reference.refusal import Refused  # noqa: E402
from random_rows import K, random_cuts, random_grammar, random_row  # noqa: E402


def sets_and_matrix(words):
    """Lines `left k mask size` and `right k mask size` for each nonterminal k, then
    `matrix` and its used part, a row of b = 0..T for each a = 0..T; or the refusal."""
    lines = []
    try:
        read = grammar.read(words)
        for k in range(read.N):
            for side in ("left", "right"):
                mask, size = sets.set_asked(words, side, k)
                lines.append(f"{side} {k} {mask} {size}")
        table = matrix.matrix_of(read)
        lines.append("matrix")
        for a in range(read.T + 1):
            lines.append(" ".join(str(table[64 * a + b]) for b in range(read.T + 1)))
    except Refused as refused:
        lines.append(f"refused {refused.number} {refused.value}")
    return lines


def random_lines(rng):
    """Grammar words, tokens and cuts of one case: a random row as it should be, or
    with a word, a token or a cut that may be refused."""
    words = grammar.words_of(*K) if rng.random() < 0.2 else random_grammar(rng)
    try:
        tokens = random_row(rng, grammar.read(words), rng.choice((4, 8, 16, 40)))
    except Refused:
        tokens = [1]
    cuts = random_cuts(rng, len(tokens), rng.choice((0, 1, 3, 8)))
    lines = [words, tokens, cuts]
    if rng.random() < 0.2:
        line = rng.choice(lines)
        if line:
            line[rng.randrange(len(line))] = rng.choice((0, 1, 64, 255, 256, 65535, rng.randrange(65536)))
    return lines


def rows_case(rng):
    """One case for `rows`; one text in eight is damaged at one byte."""
    text = "".join(" ".join(map(str, line)) + "\n" for line in random_lines(rng)).encode("ascii")
    if rng.random() < 0.125:
        at = rng.randrange(len(text))
        text = text[:at] + rng.choice((b"", b" ", b"\n", b"x", b"0", b"99999")) + text[at + rng.randint(0, 1):]
    return text, rows_text.rows(text)


def rows_cases(seed, count):
    """The cases for the program `rows`."""
    return [rows_case(random.Random(f"rows {seed} {number}")) for number in range(count)]


PROGRAMS = {"rows": rows_cases}


def write_cases(cases, folder):
    """Write each case as a file that is read and a file that must be written."""
    folder = Path(folder)
    folder.mkdir(parents=True, exist_ok=True)
    for number, (given, wanted) in enumerate(cases):
        (folder / f"{number:04}.in").write_bytes(given)
        (folder / f"{number:04}.out").write_bytes(wanted)


def main(arguments):
    if arguments == ["matrix"]:
        print("\n".join(sets_and_matrix([int(word) for word in sys.stdin.read().split()])))
        return 0
    if len(arguments) == 4 and arguments[0] in PROGRAMS:
        program, seed, count, folder = arguments
        write_cases(PROGRAMS[program](seed, int(count)), folder)
        return 0
    print(__doc__, file=sys.stderr)
    return 2


if __name__ == "__main__":
    sys.exit(main(sys.argv[1:]))
