"""Judges reports of mcg6 against the lists that they were made from, line by line, as they come."""
from __future__ import annotations

from collections import deque
from typing import IO, Deque, Generic, Iterator, List, NamedTuple, Optional, Sequence, Tuple, TypeVar

from .. import graph6
from ..errors import BadGraph, BadText
from ..graph_texts import read_graph
from ..graphs import Graph
from ..properties import ORDERS, property_word
from ..texts import MOST_BYTES
from .list_lines import WORDS, Due, Facts, fixed, shown
from .list_texts import graphs_of
from .structure import Wrong

Item = TypeVar("Item")

# No line of a report has so many bytes; of a longer one no more are kept.
MOST_ROW = 100_000

# Where lines are missing or too many, so many are looked at to find where the report goes on.
REACH = 24


class Query(NamedTuple):
    """A word of mcg6, what follows it, and whether bad lines are skipped."""

    word: str
    more: Tuple[str, ...]
    skips: bool


class LineFault(NamedTuple):
    """What is wrong with a line of a report: its number, one more than there are lines if a line is
    missing at the end; the number of the line in the list that it is about, None for a line too many;
    and words.

    >>> import io
    >>> next(iter(Judged(io.BytesIO(b"A_\\n"), io.BytesIO(b"A_ 2 1 brick 1 0 bicritical yes\\n"), ["kinds"])))
    LineFault(line=1, number=1, words="it is to be 'A_ 2 1 brace 0 1 bicritical yes\\\\n'")
    """

    line: int
    number: Optional[int]
    words: str


def query_of(words: Sequence[str]) -> Query:
    """Returns the query that arguments of mcg6 ask, without a file. Raises `BadText`."""
    word, more = (words[0] if words else ""), list(words[1:])
    is_single = word in ("graph", "encode")
    skips = not is_single and more[-1:] == ["skip"]
    if skips:
        more.pop()
    try:
        if word == "select":
            is_one = len(more) == 1 and bool(property_word(more[0]))
        elif word == "leaves":
            is_one = not more or len(more) == 1 and more[0] in ORDERS
        else:
            is_one = not more and (is_single or word in WORDS)
    except ValueError as why:
        raise BadText(str(why)) from None
    if not is_one:
        known = ", ".join([*WORDS, "graph", "encode"])
        raise BadText(f"no arguments of mcg6: {' '.join(words)}; its words are {known}, and no file follows")
    return Query(word, tuple(more), skips)


class Judged:
    """A report of `mcg6 WORDS..` that is judged against its list: iterating yields what is wrong with
    each line, nothing if the report is what docs/FORMATS.md allows. Then `lines` is the number of its
    lines.

    `words` are as `["kinds"]`, `["leaves", "last", "skip"]` or `["select", "brick"]`, without a file,
    and `source` is the list, for `encode` the graph file. Both files are read in binary, line by line,
    so the memory used does not grow with the list. The report is that of a run that ended by itself,
    with status 0 or 4; if it ended early for want of memory, say, lines are missing. Raises `BadText`
    for other words.

    >>> import io
    >>> list(Judged(io.BytesIO(b"C~\\nCh\\n"), io.BytesIO(b"C~\\n"), ["select", "brick"]))
    []
    """

    def __init__(self, source: IO[bytes], report: IO[bytes], words: Sequence[str]) -> None:
        self.lines = 0
        self._dues = Ahead(_dues(source, query_of(words)))
        self._rows = Ahead(_rows(report))

    def __iter__(self) -> Iterator[LineFault]:
        while self._dues.peek(0) is not None or self._rows.peek(0) is not None:
            missing, extra = _shift(self._dues, self._rows)
            for _ in range(min(missing, extra)):
                yield from self._judge()
            for _ in range(extra - missing):
                self._rows.take()
                self.lines += 1
                yield LineFault(self.lines, None, "no such line is due")
            for _ in range(missing - extra):
                due = self._dues.take()
                lost = shown(due.line or due.start + b"..")
                yield LineFault(self.lines + 1, due.number, f"{lost} is missing before it")

    def _judge(self) -> Iterator[LineFault]:
        """Judges the next line by the next that is due."""
        due, row = self._dues.take(), self._rows.take()
        self.lines += 1
        what = due.judge(row)
        if what:
            yield LineFault(self.lines, due.number, what)


def list_report(source: IO[bytes], report: IO[bytes], words: Sequence[str]) -> int:
    """Checks a report of `mcg6 WORDS..` on a list, and returns the number of its lines. What is given
    is as for `Judged`, which has every line that is wrong. Raises `Wrong` with the first one, and
    `BadText` for other words.

    >>> import io
    >>> list_report(io.BytesIO(b"C~\\n"), io.BytesIO(b"1 C~ C~ brick\\n"), ["leaves"])
    1
    """
    judged = Judged(source, report, words)
    for fault in judged:
        raise Wrong(f"line {fault.line}: {fault.words}")
    return judged.lines


class Ahead(Generic[Item]):
    """An iterator of which some items can be seen before they are taken."""

    def __init__(self, items: Iterator[Item]) -> None:
        self.items = items
        self.seen: Deque[Item] = deque()

    def peek(self, place: int) -> Optional[Item]:
        """The item at that place, from 0, None if there are fewer."""
        while len(self.seen) <= place:
            try:
                self.seen.append(next(self.items))
            except StopIteration:
                return None
        return self.seen[place]

    def has_left(self, count: int) -> bool:
        """Whether exactly so many items are left."""
        return self.peek(count) is None and (count == 0 or self.peek(count - 1) is not None)

    def take(self) -> Item:
        """Takes the next item, which was seen."""
        return self.seen.popleft()


def _shift(dues: Ahead[Due], rows: Ahead[bytes]) -> Tuple[int, int]:
    """How many of the lines that are due and of those that are there to take: one of both if they go
    together, or else those before the next ones that do; one of both if no such are near."""
    for total in range(REACH):
        for missing in sorted(range(total + 1), key=lambda it: abs(2 * it - total)):
            extra = total - missing
            due, row = dues.peek(missing), rows.peek(extra)
            if due is not None and row is not None:
                if row == due.line or due.line is None and row.startswith(due.start):
                    return (missing, extra) if total else (1, 1)
            elif dues.has_left(missing) and rows.has_left(extra):
                return missing, extra
    return int(dues.peek(0) is not None), int(rows.peek(0) is not None)


def _rows(report: IO[bytes]) -> Iterator[bytes]:
    """The lines of a report; one that is too long is cut."""
    while row := report.readline(MOST_ROW):
        rest = row
        while len(rest) == MOST_ROW and not rest.endswith(b"\n"):
            rest = report.readline(MOST_ROW)
        yield row


def _dues(source: IO[bytes], query: Query) -> Iterator[Due]:
    """The lines that are due."""
    if query.word == "encode":
        yield from _encoded(source)
        return
    for it in graphs_of(source, query.skips):
        if query.word == "graph":
            graph = Graph((range(1, it.order + 1), it.edges))
            yield from (fixed(it.number, row) for row in graph.to_text().splitlines())
            return
        yield from WORDS[query.word](Facts(it), query.more)


def _encoded(source: IO[bytes]) -> List[Due]:
    """The line of `encode`; none if the file has an error."""
    try:
        vertices, ends = read_graph(source.read(MOST_BYTES + 1).decode("latin-1"))
    except BadGraph:
        return []
    return [fixed(1, graph6.encode(len(vertices), ends))]
