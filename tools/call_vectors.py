"""Cases for the program `vectors`: calls of the library on stored inputs, and what it must write.

    python3 tools/call_vectors.py SEED FOLDER
        writes FOLDER/stdin and FOLDER/stdout

Standard input is a stream of 16-bit words, low byte first.  A case is its kind, and then
    kind 0, 1   the bytes that load may write; kind 1 asks to see those that are not 0
    kind 2, 3   the nonterminal whose left, right set is asked
    kind 4, 5   tokens, cuts, the area's words, and a schedule (call_cases/schedule.py); kind 5 shows only the sum of all its answers
    kind 6      a grammar's words, under which the cases of kinds 0 to 5 after it stand; their matrix is loaded
    kind 7      tokens, a report's run, and the entries whose tokens are asked
    kind 8      a text, byte by byte, and the sizes of the pieces that it is read in
    kind 9      the bytes of a run, a place, and lines of an answer
Runs are given by patterns (call_cases/stream.py).  The answers are those of the reference reader; the library is not run.
"""

import random
import struct
import sys
from pathlib import Path

sys.dont_write_bytecode = True

from call_cases import lesson, rows, schedule, tables, texts  # noqa: E402

GIVES = {
    "start": {0, 7, 8, 9, 10, 11, 15},
    "step": {0, 12, 13, 15},
    "run": {0, 12, 13, 15},
    "join": {0, 12, 14, 15},
    "report": {0, 11, 15, 16, 17, 18, 19, 20},
    "parse": {0, 1, 2, 3, 4, 5, 6, 7, 8, 9, 11, 17, 18, 19},
}
"""The numbers that the cases have to meet, for each call on a row: all that it can give.  No row uncut is refused with 20."""


def all_met():
    """Each call has given each of its numbers."""
    for call, numbers in GIVES.items():
        if schedule.MET.get(call, set()) != numbers:
            raise AssertionError(f"{call} gave {sorted(schedule.MET.get(call, set()))}, not {sorted(numbers)}")


def main(arguments):
    if len(arguments) != 2:
        print(__doc__, file=sys.stderr)
        return 2
    rng = random.Random(f"calls {arguments[0]}")
    given, wanted, count = bytearray(), [], 0
    for part in (tables, rows, texts, lesson):
        for words, text in part.cases(rng):
            given += struct.pack(f"<{len(words)}H", *words)
            wanted.append(text)
            count += 1
    all_met()
    folder = Path(arguments[1])
    (folder / "stdin").write_bytes(bytes(given))
    (folder / "stdout").write_text("".join(wanted), encoding="ascii")
    print(f"{count} cases, {len(given)} bytes in, {len(''.join(wanted))} bytes out")
    return 0


if __name__ == "__main__":
    sys.exit(main(sys.argv[1:]))
