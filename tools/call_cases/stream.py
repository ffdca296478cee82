"""The stream that the program `vectors` reads: words, runs given by patterns, and sums.

A run is the number of its pieces and then the pieces: how long a piece is, how long its pattern is, and the pattern, which is
repeated to the piece's end.  So a long row takes few words.
"""

PRIME = 4294967291
LONGEST_PATTERN = 4
WORTH = 16


def folded(total, one):
    """A sum with one more number."""
    return (total * 31 + one % PRIME + 1) % PRIME


def sum_of(run):
    """A number that tells the run's numbers at their places apart."""
    total = 0
    for one in run:
        total = (total * 31 + one + 1) % PRIME
    return total


def repeated(run, at, back):
    """Where the part of the run ends that repeats, from `at` on, its first `back` words."""
    end = at + back
    while end < len(run) and run[end] == run[end - back]:
        end += 1
    return end


def pieces(run):
    """The run's pieces as (size, pattern), in order: parts that repeat a short pattern, and what stands between them."""
    found, at, plain = [], 0, 0
    while at < len(run):
        end, back = max((repeated(run, at, back), -back) for back in range(1, LONGEST_PATTERN + 1))
        if end > len(run) or end - at < WORTH:
            at += 1
            continue
        if plain < at:
            found.append((at - plain, run[plain:at]))
        found.append((end - at, run[at:at - back]))
        at = plain = end
    if plain < len(run):
        found.append((len(run) - plain, run[plain:]))
    return found


def run_words(run):
    """The words that give a run."""
    found = pieces(list(run))
    words = [len(found)]
    for size, pattern in found:
        words += [size, len(pattern), *pattern]
    return words


def wide(number):
    """A number of two words, the low one first."""
    return [number % 65536, number // 65536]


def line(numbers):
    """The numbers on a line, each with a space after it."""
    return "".join(f"{number} " for number in numbers) + "\n"
