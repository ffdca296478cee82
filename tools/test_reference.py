"""Test the reference reader: python3 tools/test_reference.py [--seconds N] [--seed S]

Runs every sample of document 01, and then random grammars, rows, cuts,
schedules, states and work areas for N seconds.  Writes one line with what was
checked, or the first failure with all the facts of its case, and then ends
with 1.
"""

import argparse
import random
import sys
import time

sys.dont_write_bytecode = True

from reference_tests import any_state, area, demands, samples, vectors  # noqa: E402
from reference_tests.expect import COUNTS, Failure, expect  # noqa: E402

FIXED = (samples.all_samples, demands.all_short_rows, demands.all_schedules, demands.many_chunks,
         area.bad_tables, area.limits, area.damaged_reached,
         vectors.seeded_cases, vectors.printed_matrix)
"""The cases that are the same in every run."""

RANDOM = ((demands.random_round, 0.50), (demands.derivations_round, 0.08), (any_state.random_round, 0.12),
          (area.reached_round, 0.10), (area.shaped_round, 0.16), (area.nearly_round, 0.04))
"""Each kind of random round, and its share of the seconds."""


def rounds(kind, share, seconds, seed):
    """Rounds of one kind for its share of the seconds; round i of a seed is always the
    same, whatever the seconds."""
    end = time.monotonic() + share * seconds
    number = 0
    while number == 0 or time.monotonic() < end:
        name = f"{seed} {kind.__module__} {kind.__name__} {number}"
        try:
            kind(random.Random(name))
        except Exception as failure:
            raise Failure(f"round {name}: {failure}") from failure
        number += 1


def enough():
    """The random rounds met what they are meant to meet."""
    any_state.all_rules_met()
    expect(3 * COUNTS["loaded"] >= COUNTS["grammars"], "too few grammars are loaded", counts=COUNTS)
    expect(4 * COUNTS["rows accepted"] >= COUNTS["rows refused"], "too few rows are accepted", counts=COUNTS)
    expect(COUNTS["damaged areas in shape"] > 0, "no damaged area is in shape", counts=COUNTS)


def main():
    options = argparse.ArgumentParser(description="Test the reference reader.")
    options.add_argument("--seconds", type=float, default=12, help="for the random rounds, in all")
    options.add_argument("--seed", default="1")
    given = options.parse_args()
    try:
        for case in FIXED:
            case()
        for kind, share in RANDOM:
            rounds(kind, share, given.seconds, given.seed)
        if given.seconds >= 5:
            enough()
    except Failure as failure:
        print(f"reference: FAILED {failure}")
        return 1
    told = ", ".join(f"{COUNTS[name]} {name}" for name in sorted(COUNTS) if not name.startswith("move: "))
    print(f"reference: ok, {told}")
    return 0


if __name__ == "__main__":
    sys.exit(main())
