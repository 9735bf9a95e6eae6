"""Graphs that are sent through processes of mcg6, and which of them a line is about."""
from __future__ import annotations

from collections import deque
from contextlib import closing
from itertools import islice
from typing import (
    Any,
    Deque,
    Dict,
    Generator,
    Iterable,
    Iterator,
    List,
    NamedTuple,
    Optional,
    Sequence,
    Tuple,
    Type,
)

from . import graph6
from .errors import LIMIT, BadGraph, BadInput, TooLarge
from .graphs import Graph, demand_size
from .labels import Label, brief
from .streams import Stream

# The most bytes of a line of a list, its line feed included; a longer one is bad, whatever it holds.
MOST_LINE = 65_536
RANGE = 4


class Sent(NamedTuple):
    """A graph that was sent: its place among those given, from 0, its line, the graph itself, and
    the graph with its labels, None for one in graph6."""

    number: int
    line: bytes
    given: Any
    labelled: Optional[Graph]

    @property
    def graph(self) -> Graph:
        """The graph with its labels; those of a graph in graph6 are 0, 1, .."""
        return Graph(self.line) if self.labelled is None else self.labelled

    @property
    def vertices(self) -> Optional[Sequence[Label]]:
        """Its labels, None for a graph in graph6."""
        return None if self.labelled is None else self.labelled.vertices


SentParts = Tuple[int, bytes, Any, Optional[Graph]]  # those of `Sent`, which take less time to make


class Session:
    """Graphs that are sent through one process, and those of them of which nothing was heard yet.

    `before` graphs of the list were sent through other processes. With a list for skipped graphs,
    the exception for a graph that has no line is kept, and an empty line, which is no graph, is sent
    for it.
    """

    sends_by: Type[Stream] = Stream

    def __init__(
        self,
        words: Sequence[str],
        graphs: Iterable[Any],
        skipped: Optional[List[BadInput]],
        before: int = 0,
    ) -> None:
        self.graphs, self.skipped, self.before, self.count = graphs, skipped, before, 0
        self.stream = self.sends_by(words, self._lines(), skipped is not None, before)
        self.waiting: Deque[SentParts] = deque()
        self.faults: Dict[int, BadInput] = {}

    def _lines(self) -> Iterator[bytes]:
        for graph in self.graphs:
            labelled = None
            line = _plain_line(graph) if isinstance(graph, str) else None
            if line is None:
                try:
                    line, labelled = _line(graph)
                except BadInput as fault:
                    self._keep_fault(fault, graph)
                    line = b""
            self.waiting.append((self.before + self.count, line, graph, labelled))
            self.count += 1
            yield line

    def _keep_fault(self, fault: BadInput, graph: Any) -> None:
        """Keeps the exception for a graph that has no line, or raises it, with its place."""
        made: Type[BadInput] = type(fault)
        place = self.before + self.count + 1
        words = f"graph {place} of the list: {fault.words}{_hint(graph)}"
        named = made(words, place, fault.kind)
        if self.skipped is None:
            raise named from None
        self.faults[self.count + 1] = named

    def rows(self) -> Generator[bytes, None, None]:
        """The lines that mcg6 writes; at the end those that it skipped are known."""
        with closing(iter(self.stream)) as rows:
            yield from rows
        if self.skipped is not None:
            self.skipped += [
                self.faults.get(it) or fault for it, fault in sorted(self.stream.bad.items())
            ]

    def text_of(self, line: bytes) -> Sent:
        """The next graph that was sent with this line: the lines that come back are some of those
        sent, in order, and equal ones all come or none. Raises `ValueError` if there is none."""
        return Sent(*self.sent_as(line))

    def sent_as(self, line: bytes) -> SentParts:
        """The parts of `text_of(line)`, which take less time to make."""
        while self.waiting:
            sent = self.waiting.popleft()
            if sent[1] == line:
                return sent
        raise ValueError(f"mcg6 wrote a line that was not sent: {line!r}")

    def number_of(self, number: int) -> Sent:
        """The graph with this number among those that were sent, from 1, which is the last that was
        asked for or a later one. Raises `ValueError` if there is none."""
        place = self.before + number - 1
        while self.waiting and self.waiting[0][0] < place:
            self.waiting.popleft()
        if not self.waiting or self.waiting[0][0] != place:
            raise ValueError(f"mcg6 wrote of line {number}, which was not sent")
        return Sent(*self.waiting[0])


def one_by_one(
    words: Sequence[str],
    graphs: Iterable[Any],
    skipped: Optional[List[BadInput]],
    most: Optional[int],
) -> Generator[Session, None, None]:
    """Yields the sessions of a list, each with so many graphs, or one for all if that is None. Each
    is to be used up before the next is taken."""
    rest, before = without_header(graphs), 0
    while True:
        session = Session(words, rest if most is None else islice(rest, most), skipped, before)
        yield session
        before += session.count
        if most is None or session.count < most:
            return


def demand_list(graphs: Any, skipped: Any, processes: Any) -> None:
    """Raises `TypeError` if a single graph is given for a list of graphs, or no list for those that
    are skipped, and `ValueError` for a number of processes that is none."""
    if not isinstance(processes, int) or processes < 1:
        raise ValueError(f"processes is the number of processes, at least 1, and not {processes!r}")
    advice = "a list of graphs is an iterable of graphs, and this is one graph: put it in a list, [graph]"
    if isinstance(graphs, (str, bytes)):
        raise TypeError(
            "a list of graphs is an iterable of graphs, and not a text: put it in a list, [text]"
        )
    if isinstance(graphs, Graph) or hasattr(graphs, "is_directed"):
        raise TypeError(advice)
    if skipped is not None and not isinstance(skipped, list):
        raise TypeError(
            f"skipped is a list, to which the exceptions are appended, and not {skipped!r}"
        )
    iter(graphs)


def _hint(graph: Any) -> str:
    """What is added for a graph that looks like an edge."""
    if isinstance(graph, tuple) and 2 <= len(graph) <= 3:
        return " (if the list is one graph, given by its edges, put it in a list: [edges])"
    return ""


def without_header(graphs: Iterable[Any]) -> Iterator[Any]:
    """The graphs without a header that is alone, as the first line of a file may be."""
    rest = iter(graphs)
    for graph in islice(rest, 1):
        is_header = isinstance(graph, (str, bytes)) and _text(graph).rstrip("\r\n") == graph6.HEADER
        if not is_header:
            yield graph
    yield from rest


def _text(graph: Any) -> str:
    return graph if isinstance(graph, str) else bytes(graph).decode("latin-1")


def _plain_line(graph: str) -> Optional[bytes]:
    """The line of a text that needs no closer look, as most do; else None."""
    plain = graph[:-1] if graph.endswith("\n") else graph
    if len(plain) < MOST_LINE and plain.isascii() and plain.isprintable() and plain[:1] != ">":
        return plain.encode("ascii")
    return None


def _line(graph: Any) -> Tuple[bytes, Optional[Graph]]:
    """The line of a graph, without its end, and the graph if it has labels. Raises `BadGraph` or
    `TooLarge` for what has no line."""
    if not isinstance(graph, (str, bytes)):
        numbered = Graph(graph)
        demand_size(numbered.order, len({(min(it), max(it)) for it in numbered.ends}))
        return numbered.graph6().encode("ascii"), numbered
    text = graph6.bare(_text(graph))
    if "\n" in text:
        raise BadGraph(
            f"not one graph in graph6: there are several lines in {brief(repr(text))}", kind=8
        )
    if len(text) >= MOST_LINE:
        raise TooLarge("a line of a list has at most 65,536 bytes", kind=LIMIT)
    if not text.isascii() or text.startswith(graph6.HEADER):
        raise BadGraph(
            f"not graph6: a byte is outside the range 63-126 in {brief(repr(text))}", kind=RANGE
        )
    return text.encode("ascii"), None
