"""Run the built program `rows` and compare what it writes, byte for byte: python3 tests/rows.py [--seed S] [--rows N]

The wanted answers are document 01's ("Sample rows"), written out here, or those of the independent reference parser under tools/;
where document 01 gives one, the reference parser must give it too. None comes from the library.  Writes a line for each case, and
ends with 1 if one fails.  `rows.sh` proves and builds the program first where that has not been done.
"""

import argparse
import os
import subprocess
import sys
import time
from pathlib import Path

sys.dont_write_bytecode = True
ROOT = Path(__file__).resolve().parent.parent
sys.path.insert(0, str(ROOT / "tools"))

from grugalash_reference.grammar import words_of  # noqa: E402
from grugalash_reference.rows_text import rows as reference  # noqa: E402
from make_vectors import rows_cases  # noqa: E402

COMMAND = [str(ROOT / "rows.sh"), "-n"]
SECONDS = 60
"""For one run."""

K = b"5 2 2 5 9 11 16 21 25 0 1 0 3 256 4 5 0 3 257 4 5 1 256 2 256 1 257 2 256\n"
EIGHT = "0 0 1\n0 3 4\n0 5 6\n3 3 6\n2 2 8\n3 0 8\n"
ONE = b"parse 1 1 3\n0 0 1\n"

SAMPLES = {
    "eight-cut": "parse 8 2 21\n" + EIGHT,
    "eight": "parse 8 1 15\n" + EIGHT,
    "one-stitch": "parse 1 1 3\n0 0 1\n",
    "two-stitches": "refused 17 1\n",
    "no-count": "refused 17 3\n",
    "comma": "refused 18 1\n",
    "comma-last": "refused 18 2\n",
    "empty-brackets": "refused 18 3\n",
    "later-chunk-stuck": "refused 18 2\n",
    "conflict": "refused 6 130\n",
    "not-axiom": "refused 19 1\n",
    "token-0": "refused 9 0\n",
    "no-tokens": "refused 7 0\n",
    "no-words": "refused 1 0\n",
    "too-many-rules": "refused 1 3\n",
    "cuts-64": "refused 10 63\n",
    "number-65536": "text 1\n",
}
"""The files of samples/ with the answers of document 01."""


def line(numbers):
    """Numbers as a line."""
    return b" ".join(b"%d" % number for number in numbers) + b"\n"


def accepted(n):
    """A row of grammar K of n tokens: stitches parted by commas, in brackets if n is even."""
    if n % 2:
        return [1] + [2, 1] * (n // 2)
    return [3] + accepted(n - 3) + [4, 5]


LARGEST = words_of(63, 64, 64, [(r % 64, (1 + r % 63, 1 + r // 63) * 4) for r in range(256)])
"""A grammar of 2,564 words, the most that there can be."""


def texts():
    """Cases as (name, what is read, the wanted answer, or None where the reference parser gives it)."""
    yield "text after the third line is not read", K + b"1\n\nx 99999 \xff", ONE
    yield "an empty first line", b"\n1\n\n", b"refused 1 0\n"
    yield "an empty second line", K + b"\n\n", b"refused 7 0\n"
    yield "an empty second line and a cut", K + b"\n7\n", b"refused 7 0\n"
    yield "three empty lines", b"\n\n\n", b"refused 1 0\n"
    yield "an empty input", b"", b"text 1\n"
    yield "a first line without its line feed", K[:-1], b"text 1\n"
    yield "one line", K, b"text 2\n"
    yield "a second line without its line feed", K + b"1", b"text 2\n"
    yield "two lines", K + b"1\n", b"text 3\n"
    yield "a third line without its line feed", K + b"1\n0", b"text 3\n"
    yield "a space and then the end", K + b"1\n0 ", b"text 3\n"
    yield "leading zeros", b"0005 2 002" + K[5:] + b"0000001\n0000\n", b"parse 1 2 6\n0 0 1\n"
    yield "a megabyte of zeros before a number", K + b"0" * (1 << 20) + b"1\n\n", ONE
    yield "a megabyte of zeros and no number after", b"0" * (1 << 20) + b"\n1\n\n", b"refused 1 0\n"
    yield "a megabyte of nines", b"9" * (1 << 20) + b"\n1\n\n", b"text 1\n"
    yield "65,535 as a word", b"65535\n1\n\n", b"refused 1 0\n"
    yield "65,535 as a token", K + b"65535\n\n", b"refused 9 0\n"
    yield "65,535 as a cut", K + b"1\n65535\n", b"refused 10 0\n"
    yield "65,536 as a word", b"65536\n1\n\n", b"text 1\n"
    yield "65,536 as a token", K + b"1 65536\n\n", b"text 2\n"
    yield "65,536 as a cut", K + b"1\n65536\n", b"text 3\n"
    yield "65,536 with leading zeros", b"0000065536\n1\n\n", b"text 1\n"
    yield "a number that 16 bits would cut to 5", b"65541" + K[1:] + b"1\n\n", b"text 1\n"
    yield "a number of ten digits", K + b"4294967297\n\n", b"text 2\n"
    yield "a number of twenty digits", K + b"18446744073709551617\n\n", b"text 2\n"
    yield "bad second and third lines", K + b"x\ny\n", b"text 2\n"
    yield "three bad lines", b"x\ny\nz\n", b"text 1\n"
    yield "a bad second line, and the third missing", K + b"x\n", b"text 2\n"
    yield "a bad third line with words that load would refuse", b"0\n1\nx\n", b"text 3\n"
    yield "a bad third line with tokens that start would refuse", K + b"0\n1 \n", b"text 3\n"
    yield "2,564 words", line([1] * 2564) + b"1\n\n", b"refused 2 0\n"
    yield "the largest grammar", line(LARGEST) + b"1\n\n", None
    yield "2,565 words", line([1] * 2565) + b"1\n\n", b"text 1\n"
    yield "ten thousand words", line([1] * 10000) + b"1\n\n", b"text 1\n"
    yield "1,024 tokens, refused", K + line([1] * 1024) + b"\n", b"refused 17 1\n"
    yield "1,023 tokens, accepted", K + line(accepted(1023)) + b"\n", None
    yield "1,024 tokens, accepted", K + line(accepted(1024)) + b"\n", None
    yield "1,024 tokens in 64 chunks, accepted", K + line(accepted(1024)) + line(range(16, 1024, 16)), None
    yield "1,024 tokens in 64 chunks, most of them empty", K + line(accepted(1024)) + line([0] * 31 + [1024] * 32), None
    yield "1,025 tokens", K + line([1] * 1025) + b"\n", b"text 2\n"
    yield "63 cuts", K + b"1\n" + line([0] * 31 + [1] * 32), None
    yield "64 cuts", K + b"1\n" + line([0] * 64), b"refused 10 63\n"
    yield "65 cuts", K + b"1\n" + line([0] * 65), b"text 3\n"
    yield "a cut above n", K + b"1\n2\n", b"refused 10 0\n"
    yield "a cut below the one before", K + b"1 2 1\n2 1\n", b"refused 10 1\n"
    yield "256 rules pass the head", b"5 2 2 256\n1\n\n", b"refused 2 0\n"
    for name, bad in (("a space first", b" 1"), ("a space last", b"1 "), ("two spaces", b"1  1"), ("only a space", b" "),
                      ("a NUL", b"1 \0 1"), ("a NUL after a number", b"1\0"), ("a carriage return", b"1\r"), ("a tab", b"1\t1"),
                      ("UTF-8", "1 \u00bd".encode()), ("a digit of another script", "\u0661".encode()), ("a byte 255", b"\xff"),
                      ("a letter", b"1 a"), ("a sign", b"-1"), ("a comma", b"1,1"), ("hexadecimal", b"0x1"), ("a form feed", b"1\f")):
        yield name + ", line 1", bad + b"\n1\n\n", b"text 1\n"
        yield name + ", line 2", K + bad + b"\n\n", b"text 2\n"
        yield name + ", line 3", K + b"1\n" + bad + b"\n", b"text 3\n"


def run(given, arguments=()):
    """What the program writes for a whole input, which then ends."""
    done = subprocess.run([*COMMAND, *arguments], input=given, stdout=subprocess.PIPE, timeout=SECONDS, check=True)
    return done.stdout


def by_bytes(given):
    """The same, by a pipe that delivers one byte at a time."""
    program = subprocess.Popen(COMMAND, stdin=subprocess.PIPE, stdout=subprocess.PIPE, bufsize=0)
    for byte in given:
        program.stdin.write(bytes([byte]))
        time.sleep(0.0005)
    return program.communicate(timeout=SECONDS)[0]


def left_open(given):
    """The same, by a pipe that stays open: the program must answer and end all the same."""
    program = subprocess.Popen(COMMAND, stdin=subprocess.PIPE, stdout=subprocess.PIPE, bufsize=0)
    try:
        program.stdin.write(given)
        program.wait(timeout=SECONDS)
        return program.stdout.read()
    finally:
        program.kill()
        program.stdin.close()
        program.stdout.close()
        program.wait()


def nothing_more(given):
    """The same, line by line, each asked for only when the one before has been taken; what comes after the third line feed must be
    left in the pipe."""
    reading, writing = os.pipe()
    program = subprocess.Popen(COMMAND, stdin=reading, stdout=subprocess.PIPE)
    for part in given.splitlines(keepends=True):
        os.write(writing, part)
        time.sleep(0.2)
    said = program.communicate(timeout=SECONDS)[0]
    os.write(writing, b"left\n")
    os.close(writing)
    with os.fdopen(reading, "rb") as rest:
        return said + rest.read()


class Tally:
    """Counts the cases, and writes a line for each."""

    def __init__(self):
        self.passed = self.failed = 0

    def case(self, name, given, wanted, call, *arguments):
        """One case: `call(*arguments)` must give what is wanted."""
        try:
            found = call(*arguments)
        except (subprocess.SubprocessError, OSError) as error:
            found = repr(error)
        if found == wanted:
            self.passed += 1
            print(f"ok      {name}")
            return
        self.failed += 1
        print(f"FAILED  {name}\n    given   {given[:200]!r} ({len(given)} bytes)\n    wanted  {wanted!r}\n    found   {found!r}")


def all_cases(tally, seed, count):
    """Every case."""
    files = {path.stem for path in (ROOT / "samples").glob("*.txt")}
    tally.case("samples/ has these files", b"", sorted(SAMPLES), lambda: sorted(files))
    for name, wanted in SAMPLES.items():
        path = ROOT / "samples" / f"{name}.txt"
        tally.case(f"sample {name}, as the reference parser", path.read_bytes(), wanted.encode(), reference, path.read_bytes())
        tally.case(f"sample {name}", path.read_bytes(), wanted.encode(), run, None, [str(path)])
    for name, given, wanted in texts():
        if wanted is None:
            wanted = reference(given)
        elif reference(given) != wanted:
            tally.case(f"{name}, as the reference parser", given, wanted, reference, given)
        tally.case(name, given, wanted, run, given)
    eight = (ROOT / "samples" / "eight-cut.txt").read_bytes()
    cut = K + b"1 2 03 1 2 00001 4 5\n4\n"
    wanted = SAMPLES["eight-cut"].encode()
    tally.case("one byte at a time", cut, wanted, by_bytes, cut)
    tally.case("one byte at a time, 1,024 tokens", b"", reference(K + line(accepted(1024)) + b"512\n"), by_bytes,
               K + line(accepted(1024)) + b"512\n")
    tally.case("one byte at a time, and the third line ends with no line feed", eight[:-1], b"text 3\n", by_bytes, eight[:-1])
    tally.case("the input stays open after the third line feed", eight, wanted, left_open, eight)
    tally.case("the input stays open after more text", eight, wanted, left_open, eight + b"more\n" * 100)
    tally.case("the input stays open after a bad first line", b"x\n", b"text 1\n", left_open, b"x\n")
    tally.case("nothing is asked for after the third line feed", eight, wanted + b"left\n", nothing_more, eight)
    for number, (given, answer) in enumerate(rows_cases(seed, count)):
        tally.case(f"random row {seed} {number}: {answer.splitlines()[0].decode()}", given, answer, run, given)


def main():
    options = argparse.ArgumentParser(description="Run the built program `rows` and compare what it writes.")
    options.add_argument("--seed", default="1")
    options.add_argument("--rows", type=int, default=200, help="how many random rows")
    given = options.parse_args()
    subprocess.run([COMMAND[0], str(ROOT / "samples" / "one-stitch.txt")], stdout=subprocess.DEVNULL, check=True)
    tally = Tally()
    all_cases(tally, given.seed, given.rows)
    print(f"rows: {tally.passed} passed, {tally.failed} failed")
    return 1 if tally.failed else 0


if __name__ == "__main__":
    sys.exit(main())
