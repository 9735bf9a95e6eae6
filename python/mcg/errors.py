"""The exceptions of the package.

A refusal by `check`, `check_ears` or `replay` is not among them: those return it as a value.
"""
from __future__ import annotations

from typing import Any, Optional

from .words import uncovered_words

# The kinds of faults in a file, by number, as docs/FORMATS.md has them.
FAULTS = {
    1: "missing or wrong header",
    2: "wrong first word, or wrong number of words",
    3: "expected a number",
    4: "a vertex or edge number is 0 or too large",
    5: "the two ends of an edge are equal",
    6: "a limit is exceeded",
    7: "unexpected end of file",
    8: "unexpected line after the end",
    9: "numbers not in increasing order",
    10: "a shore contains the highest-numbered vertex",
    11: "expected the name of a vertex",
    12: "a name is given twice",
    13: "invalid name: use 1 to 16 letters, digits, _, - or .",
    14: "a padding bit is set",
    15: "a size up to 62 is written in four bytes",
}
LIMIT = 6


class Error(Exception):
    """The base of all exceptions of this package.

    Attributes: `words`, what is wrong, as the program said it if a program did.
    """

    def __init__(self, words: str, *more: Any) -> None:
        super().__init__(words, *more)
        self.words = words

    def __str__(self) -> str:
        return self.words


class BadInput(Error):
    """An input that is not what it must be: a graph, or the text of a file.

    Attributes: `line`, the line of a text that the caller gave or the place of the graph in a
    list, counted from 1, or None; `kind`, the number of the kind of error in docs/FORMATS.md, or
    None.

    >>> import mcg
    >>> try: mcg.analyse([("a", "a")])
    ... except mcg.BadInput as fault: print(fault, fault.kind)
    the edge ('a', 'a') is a loop 5
    """

    def __init__(self, words: str, line: Optional[int] = None, kind: Optional[int] = None) -> None:
        super().__init__(words, line, kind)
        self.line = line
        self.kind = kind


class BadGraph(BadInput):
    """An input that is not a graph: a loop, an edge given twice, a directed graph, a bad text."""


class TooLarge(BadGraph):
    """A graph with more than 128 vertices or 2,048 edges, or another limit that is passed."""


class BadText(BadInput):
    """A tree, an ear decomposition, moves or picks that do not fit their format or the graph."""


class NotCovered(Error):
    """The graph is not matching covered, so it has no decomposition.

    Attributes: `reason` is `"order"` (fewer than two vertices), `"parts"` (not connected),
    `"berge"` (no perfect matching) or `"edge"` (some edge is in no perfect matching). `witness`
    is None for `order`; two vertices in different components; a set S of vertices such that G - S
    has more than |S| odd components; or the first edge that is in no perfect matching.

    >>> import mcg
    >>> try: mcg.decompose([("a", "b"), ("b", "c"), ("c", "d")])
    ... except mcg.NotCovered as why: print(why)
    the graph is not matching covered: edge ('b', 'c') is in no perfect matching (leave out such edges: analyse lists the others as allowed)
    """

    def __init__(self, reason: str, witness: Any = None) -> None:
        super().__init__(uncovered_words(reason, witness), reason, witness)
        self.reason = reason
        self.witness = witness

    def __reduce__(self) -> Any:
        return type(self), (self.reason, self.witness)


class NotADerivation(Error):
    """A tree given to `compare` or `script` is not a tight cut decomposition of the graph.

    Attributes: `place`, 1 for the first tree and 2 for the second; `refusal`, a `Refusal`.
    """

    def __init__(self, place: int, refusal: Any) -> None:
        super().__init__(f"tree {place} is not a tight cut decomposition; {refusal}", place, refusal)
        self.place = place
        self.refusal = refusal

    def __reduce__(self) -> Any:
        return type(self), (self.place, self.refusal)


class ProgramMissing(Error):
    """A program is not there: neither `MCG` (or `MCG6`) nor the `PATH` leads to it."""


class OutOfMemory(Error):
    """The program ran out of memory."""


class ProgramFailed(Error):
    """The program ended in a way that no report explains, or wrote what no report is; or it cannot
    be run so that its end is known.

    Attributes: `status`, its exit status, or the number of a signal with a minus sign, or None.
    """

    def __init__(self, words: str, status: Optional[int] = None) -> None:
        super().__init__(words, status)
        self.status = status
