"""The rows of docs/LESSON.md: each read as text, by the schedule of the program `rows` or by the one that the lesson shows, and its report shown."""

from pathlib import Path

from grugalash_reference.rows_text import lines_of

from .rows import whole_case
from .schedule import GREATEST, Row
from .tables import Group
from .texts import reading_case

TOOLS = Path(__file__).resolve().parent.parent


def texts_of(name, lines):
    """The texts of a file, so many lines each."""
    every = (TOOLS / name).read_text(encoding="ascii").split("\n")[:-1]
    for at in range(0, len(every), lines):
        yield every[at:at + lines]


def played(row, calls):
    """The calls that a lesson's schedule names, as `run 0 step 1 join 0`."""
    names = calls.split()
    for name, chunk in zip(names[0::2], names[1::2]):
        if name == "run":
            row.run(int(chunk), GREATEST)
        elif name == "step":
            row.step(int(chunk))
        else:
            row.join(int(chunk))


def row_case(lines, schedule):
    """A row's text, its grammar, and the row itself."""
    text = "".join(one + "\n" for one in lines).encode("ascii")
    words, tokens, cuts = lines_of(text)
    yield reading_case(text, (1, 16400))
    group = Group(words)
    yield group.given, group.wanted
    yield whole_case(Row(group, tokens, cuts), schedule)


def cases(rng):
    """All of them, each as (words given, text wanted)."""
    for lines in texts_of("lesson_rows.txt", 3):
        yield from row_case(lines, lambda row: row.to_end())
    for *lines, calls in texts_of("lesson_schedules.txt", 4):
        yield from row_case(lines, lambda row: played(row, calls))
