"""Time start, run and join to the end through the built library, for comma lists of grammar K.

    python3 tools/time_moves.py [PROGRAM]
        PROGRAM is the built program `vectors`, crates/vectors/out/vectors if not given (`rt run` in crates/vectors builds it)

Rows of 4,095 and of 16,383 tokens, cut into two and into 64 chunks: start, each chunk run until it rests, then chunk 0 joined
rightwards and run until it rests after each join.  The program is timed with a schedule that does this many times over, and with one
that does as many calls of nothing, so that what is left is the work of the library.  The time of the longer row may be at most five
times that of the shorter one.
"""

import resource
import struct
import subprocess
import sys

sys.dont_write_bytecode = True

from call_cases.rows import comma_list, even_cuts  # noqa: E402
from call_cases.stream import run_words, wide  # noqa: E402
from grugalash_reference import grammar  # noqa: E402
from grugalash_reference.chunks import area_need  # noqa: E402
from random_rows import K  # noqa: E402

SHORT, LONG = 4095, 16383
MOST = 5
START, NOTHING, END = 1, 5, 0
TRIES = 5


def to_end(chunks):
    """The call of the schedule of `rows` over so many chunks."""
    return 5 + 16 * chunks


def stream(n, chunks, calls, times):
    """The program's input: K, the row, and the two calls again and again."""
    tokens, cuts = comma_list(n), even_cuts(n, chunks)
    words = [6, *run_words(grammar.words_of(*K)), 5, *run_words(tokens), *run_words(cuts), *wide(area_need(n, chunks))]
    words += calls * times + [END]
    return struct.pack(f"<{len(words)}H", *words)


def spent():
    """Seconds of the processor that ended programs have taken."""
    usage = resource.getrusage(resource.RUSAGE_CHILDREN)
    return usage.ru_utime + usage.ru_stime


def seconds(program, given):
    """The least processor time of some runs of the program."""
    times = []
    for _ in range(TRIES):
        before = spent()
        subprocess.run([program], input=given, stdout=subprocess.DEVNULL, check=True)
        times.append(spent() - before)
    return min(times)


def time_of(program, n, chunks, times):
    """Processor seconds of start, runs and joins to the end, once."""
    work = seconds(program, stream(n, chunks, [START, to_end(chunks)], times))
    idle = seconds(program, stream(n, chunks, [NOTHING, NOTHING], times))
    return (work - idle) / times


def main(arguments):
    program = arguments[0] if arguments else "crates/vectors/out/vectors"
    good = True
    for chunks, times in ((2, 200), (64, 10)):
        short, long = (time_of(program, n, chunks, times * factor) for n, factor in ((SHORT, 4), (LONG, 1)))
        good = good and long <= MOST * short
        print(f"{chunks} chunks: {SHORT} tokens {short * 1000:.3f} ms, {LONG} tokens {long * 1000:.3f} ms, {long / short:.2f} times")
    print("at most fivefold" if good else "MORE than fivefold")
    return 0 if good else 1


if __name__ == "__main__":
    sys.exit(main(sys.argv[1:]))
