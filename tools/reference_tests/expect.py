"""How a test says what it expects: a failure carries all the facts of its case."""

from collections import Counter

from grugalash_reference.refusal import Refused

COUNTS = Counter()
"""How many of each kind of check were made."""


class Failure(Exception):
    """An expectation that does not hold."""


def expect(holds, what, **facts):
    """Fail with the facts unless `holds`."""
    if not holds:
        told = "".join(f"\n    {name} = {value}" for name, value in facts.items())
        raise Failure(what + told)


def same(found, wanted, what, **facts):
    """Fail unless found and wanted are equal."""
    expect(found == wanted, what, found=found, wanted=wanted, **facts)


def answer_of(call, *arguments):
    """What a call answers, a refusal as ("refused", number, value)."""
    try:
        return call(*arguments)
    except Refused as refused:
        return ("refused", *refused.answer)


def refused(number, value, call, *arguments):
    """Fail unless the call is refused with exactly this number and value."""
    same(answer_of(call, *arguments), ("refused", number, value), "another refusal",
         call=call.__name__, arguments=arguments)
    COUNTS["refusals"] += 1
