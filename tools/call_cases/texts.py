"""Cases of the text of `rows`: three lines read in pieces of different sizes, and the lines of its answer put into a run of bytes."""

from grugalash_reference import grammar
from grugalash_reference.rows_text import BadText, lines_of, rows
from make_vectors import rows_cases
from random_rows import K

from .stream import line, run_words, sum_of, wide

SIZES = (1, 2, 3, 7, 64, 16400)


def reading_case(text, sizes=SIZES):
    """A text in pieces of each size: how many numbers each line has and their sums, or 0 and the first bad line."""
    try:
        lines = lines_of(text)
        wanted = line([len(numbers) for numbers in lines] + [sum_of(numbers) for numbers in lines])
    except BadText as bad:
        wanted = line([0, bad.line])
    return [8, *run_words(text), len(sizes), *sizes], wanted * len(sizes)


def text_of(*lines):
    """Lines of numbers as text."""
    return "".join(" ".join(map(str, numbers)) + "\n" for numbers in lines).encode("ascii")


def sample_texts():
    """Document 01's sample, cut and uncut, and its other rows."""
    k = grammar.words_of(*K)
    for tokens, cuts in (([1, 2, 3, 1, 2, 1, 4, 5], [4]), ([1, 2, 3, 1, 2, 1, 4, 5], []), ([1], []), ([1, 2, 4, 1, 1], [3]),
                         ([0], []), ([], []), ([2], [0, 1])):
        yield text_of(k, tokens, cuts)
    yield text_of([2, 2, 1, 2, 6, 10, 0, 257, 2, 257, 1, 1], [1], [])


def odd_texts():
    """Empty input, missing line feeds, misplaced and other characters, the greatest numbers, leading zeros, text after the third line."""
    yield from (b"", b"\n", b"\n\n", b"\n\n\n", b"1", b"1\n", b"1\n2\n", b"1\n2\n3", b"1\n2\n3\n", b"1\n2\n3\nrest \0\n", b"\n\n\n\n \n")
    yield from (b"1 2\r\n3\n4\n", b"1\t2\n3\n4\n", b"1 \0\n3\n4\n", b"1\n\0\n4\n", b"1 2 \n3\n4\n", b" 1\n3\n4\n", b"1  2\n3\n4\n",
                b"1\n2\n \n", b"1\n2\n3 \n", b"1\n 2\n3\n", b"-1\n2\n3\n", b"+1\n2\n3\n", b"1,2\n2\n3\n", b"0x1\n2\n3\n", b"1.\n2\n3\n")
    yield from ("1\n2 \u00e9\n3\n".encode("utf-8"), "\ufeff1\n2\n3\n".encode("utf-8"), b"1\n2\n\xff\n", "\u0661\n2\n3\n".encode("utf-8"))
    yield from (b"65535\n65535 65535\n65535\n", b"65536\n1\n1\n", b"1\n65536\n1\n", b"1\n1\n65536\n", b"1\n1\n99999\n", b"655350\n1\n1\n",
                b"4294967297\n1\n1\n", b"18446744073709551617\n1\n1\n", b"1\n" + b"9" * 100 + b"\n1\n")
    yield from (b"000\n00065535 01\n0\n", b"0" * 300 + b"65535\n1\n1\n", b"0" * 300 + b"65536\n1\n1\n", b"00\n00\n00\n")
    yield from (b"x\nx\nx\n", b"1\nx\nx\n", b"1\n1\nx\n", b"1\n1 x\n65536\n", b"/\n1\n1\n", b":\n1\n1\n", b"1\n/\n1\n", b"1\n1\n:\n", b"1\n1\n1\x0b\n")


def long_texts():
    """Lines as long as the buffers, and one number longer; a long line that is bad at its end."""
    yield b"7 " * 2563 + b"7\n1\n1\n"
    yield b"7 " * 2564 + b"7\n1\n1\n"
    yield b"7 " * 2564 + b"\n1\n1\n"
    yield b"1\n" + b"1 " * 1023 + b"1\n1\n"
    yield b"1\n" + b"1 " * 1024 + b"1\n1\n"
    yield b"1\n1\n" + b"9 " * 63 + b"9\n"
    yield b"1\n1\n" + b"9 " * 64 + b"9\n"
    yield b"1\n1\n" + b"9 " * 64 + b"9\nrest"
    yield b"7 " * 2500 + b"x\n1\n1\n"


PARSE, ENTRY, REFUSED, TEXT = range(4)
NAMES = {"parse": PARSE, "refused": REFUSED, "text": TEXT}


def answer_line(kind, numbers):
    """One line of the answer, as bytes."""
    names = {PARSE: "parse ", ENTRY: "", REFUSED: "refused ", TEXT: "text "}
    return (names[kind] + " ".join(map(str, numbers)) + "\n").encode("ascii")


def writing_case(room, at, lines):
    """Lines put one after the other into a run of `room` bytes `#`, from `at` on: where each ends, and the run."""
    given = [9, room, at, len(lines)]
    run, ends = bytearray(b"#" * room), []
    for kind, numbers in lines:
        given.append(kind)
        for number in [*numbers, 0, 0][:3]:
            given += wide(number)
        wanted = answer_line(kind, numbers)
        if at + len(wanted) <= room:
            run[at:at + len(wanted)] = wanted
            at += len(wanted)
        ends.append(at)
    return given, "".join(f"{end} " for end in ends) + run.decode("ascii") + "\n"


def parsed_line(text):
    """A line of `rows` as its kind and its numbers."""
    first, *rest = text.split()
    if first in NAMES:
        return NAMES[first], [int(number) for number in rest]
    return ENTRY, [int(number) for number in (first, *rest)]


def writing_cases():
    """Numbers at their limits, a run as long as the line, one byte short, longer, a place past its end; the answers to the samples."""
    most = 4294967295
    for kind, count in ((PARSE, 3), (ENTRY, 3), (REFUSED, 2), (TEXT, 1)):
        for numbers in ([0] * count, [9, 10, 99][:count], [100, 65535, 65536][:count], [most] * count, [999999999, 1000000000, 7][:count]):
            size = len(answer_line(kind, numbers))
            for room, at in ((size, 0), (size - 1, 0), (size + 3, 2), (size + 3, 3), (size + 3, 4), (size, size), (size, 65535), (0, 0)):
                yield writing_case(room, at, [(kind, numbers)])
    for text in sample_texts():
        wanted = rows(text).decode("ascii")
        lines = [parsed_line(one) for one in wanted.splitlines()]
        for room in (len(wanted), len(wanted) - 1, 60):
            yield writing_case(room, 0, lines)


def cases(rng):
    """All of them, each as (words given, text wanted)."""
    for text in [*sample_texts(), *odd_texts()]:
        yield reading_case(text)
    for text in long_texts():
        yield reading_case(text, (1, 1000, 16400))
    for text, _ in rows_cases(f"texts {rng.random()}", 120):
        yield reading_case(text[:600], (1, rng.randint(2, 40)))
    yield from writing_cases()
