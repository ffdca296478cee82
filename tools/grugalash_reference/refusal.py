"""Refusals: "All return number and value and leave lent memory unchanged"
(document 01, "Refusal numbers").

A call that is refused raises `Refused(number, value)` before it writes
anything.  The one exception that document 01 names, the work area of the
one-call parse, is in `parse`.
"""

NAMES = {
    1: "HEAD",
    2: "CONTENTS",
    3: "SYMBOL",
    4: "FORM",
    5: "TWIN",
    6: "CONFLICT",
    7: "EMPTY",
    8: "TOO LONG",
    9: "BAD TOKEN",
    10: "BAD CUT",
    11: "NO ROOM",
    12: "NO CHUNK",
    13: "AT REST",
    14: "NO JOIN",
    15: "BAD STATE",
    16: "UNFINISHED",
    17: "NO RELATION",
    18: "NO RULE",
    19: "NOT AXIOM",
    20: "SIDE BY SIDE",
    21: "NO NONTERMINAL",
}


class Refused(Exception):
    """A refusal: its number and its value."""

    def __init__(self, number, value):
        super().__init__(f"refused {number} {value} ({NAMES[number]})")
        self.number = number
        self.value = value

    @property
    def answer(self):
        """The refusal as the pair (number, value)."""
        return self.number, self.value
