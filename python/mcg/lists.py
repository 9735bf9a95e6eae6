"""Lists of graphs, through processes of mcg6: `kinds`, `leaves`, `elementary` and `select`."""
from __future__ import annotations

from contextlib import closing
from functools import lru_cache
from typing import Any, Callable, Dict, Iterable, Iterator, List, Optional, Sequence, TypeVar

from . import graph6
from .blocks import at_once
from .errors import BadInput, ProgramFailed
from .graphs import GraphLike
from .list_answers import Kind, ListComponent, ListLeaf
from .properties import Order, Property, order_word, property_word
from .sessions import Session, Sent, demand_list, one_by_one

GivenGraph = TypeVar("GivenGraph", bound=GraphLike)
Answer = TypeVar("Answer")

# After so many graphs a new process begins, where a graph may have no line, so that none is kept
# in memory for longer.
SESSION = 8192

# Words of the lines of `mcg6 kinds`.
KIND_WORDS = {b"brick": "brick", b"brace": "brace", b"composite": "composite"}
ANSWERS = {b"yes": True, b"no": False}


def kinds(
    graphs: Iterable[GraphLike],
    skipped: Optional[List[BadInput]] = None,
    processes: int = 1,
) -> Iterator[Kind]:
    """Yields what `mcg6 kinds` reports of each graph, in order, by one process for all of them.

    Graphs are taken from the iterable some way ahead of the results; the memory used does not
    grow with the list. Parallel edges count once. If a graph is bad (`BadGraph`, `TooLarge`), or
    the iterable raises an exception, the results for those before it come first.

    If `skipped` is a list, bad graphs are left out instead. When the list has ended, an exception
    for each is appended to `skipped`, in order; its `line` is the place of the graph among those
    given, from 1. A result has the `index` of its graph, from 0, and the graph as it was `given`.

    With `processes`, the list is sent in parts to so many processes of mcg6 at a time; the results
    are the same, in the same order, and `ValueError` is raised if the number is less than 1. This
    pays off for a list that keeps one process busy for a second or more: for 18 vertices and
    more, say. `os.cpu_count()` is the number of processors.

    >>> import mcg
    >>> bad = []
    >>> [(it.index, it.kind) for it in mcg.kinds(["C~", "x!", "IheA@GUAo"], skipped=bad)]
    [(0, 'brick'), (2, 'brick')]
    >>> [(fault.line, fault.kind) for fault in bad]
    [(2, 4)]
    >>> [it.bricks for it in mcg.kinds(["C~", "E~rG"], processes=2)]
    [1, 2]
    """
    demand_list(graphs, skipped, processes)
    return answers(["kinds"], _kind, graphs, skipped, processes, None)


def leaves(
    graphs: Iterable[GraphLike],
    order: Order = "first",
    skipped: Optional[List[BadInput]] = None,
    processes: int = 1,
) -> Iterator[ListLeaf]:
    """Yields the bricks and braces of each graph, in order, by a process for each 8,192 of them.

    `order` is `"first"`, `"last"` or `"balanced"`; another raises `ValueError`. A graph that is not
    matching covered gives none. The leaves are texts in graph6: `decompose` has those of one graph
    with their blocks, in its own labels. What is said of `kinds` on memory, on bad graphs and on
    `processes` holds here too.

    >>> import mcg
    >>> [(leaf.index, leaf.graph6, leaf.kind) for leaf in mcg.leaves(["Ch", "E~rG"])]
    [(1, 'C~', 'brick'), (1, 'C~', 'brick')]
    """
    words = ["leaves", order_word(order)]
    demand_list(graphs, skipped, processes)
    return answers(words, _leaf, graphs, skipped, processes, SESSION)


def elementary(
    graphs: Iterable[GraphLike],
    skipped: Optional[List[BadInput]] = None,
    processes: int = 1,
) -> Iterator[ListComponent]:
    """Yields the elementary components of each graph, in order, by a process for each 8,192 of them.

    These are the components of the subgraph of the allowed edges, by their least vertices; each
    is matching covered. A graph without a perfect matching gives none. What is said of `kinds` on
    memory, on bad graphs and on `processes` holds here too.

    >>> import mcg
    >>> for part in mcg.elementary([[("a", "b"), ("b", "c"), ("c", "d")], "Ch"]): print(part)
    <component 'a', 'b' of graph 0: A_>
    <component 'c', 'd' of graph 0: A_>
    <component 0, 1 of graph 1: A_>
    <component 2, 3 of graph 1: A_>
    """
    demand_list(graphs, skipped, processes)
    return answers(["elementary"], _component, graphs, skipped, processes, SESSION)


def select(
    graphs: Iterable[GivenGraph],
    what: Property,
    skipped: Optional[List[BadInput]] = None,
    processes: int = 1,
) -> Iterator[GivenGraph]:
    """Yields the graphs that have the property, as they were given, by a process for each 8,192.

    `what` is a word of `mcg6 select`: `"covered"`, `"uncovered"`, `"perfect"` (with a perfect
    matching), `"brick"`, `"brace"`, `"bicritical"`, `"composite"`, `"bricks=K"` or `"braces=K"`
    with a number K, which may also be given as a pair such as `("bricks", 12)`; anything else
    raises `ValueError`. What is said of `kinds` on memory, on bad graphs and on `processes` holds
    here too.

    >>> import mcg
    >>> list(mcg.select(["C~", "Bw", "A_", "E~rG"], "brick"))
    ['C~']
    >>> list(mcg.select(["C~", "Bw", "A_", "E~rG"], ("bricks", 2)))
    ['E~rG']
    """
    words = ["select", property_word(what)]
    demand_list(graphs, skipped, processes)
    return answers(words, _given, graphs, skipped, processes, SESSION)


def answers(
    words: Sequence[str],
    read: Callable[[bytes, Session], Answer],
    graphs: Iterable[Any],
    skipped: Optional[List[BadInput]],
    processes: int,
    most: Optional[int],
) -> Iterator[Answer]:
    """What the lines say that mcg6 writes; each process takes so many graphs at most."""
    if processes > 1:
        sessions = at_once(words, graphs, skipped, processes)
    else:
        sessions = one_by_one(words, graphs, skipped, most)
    with closing(sessions):
        for session in sessions:
            with closing(session.rows()) as rows:
                for row in rows:
                    try:
                        answer = read(row, session)
                    except (BadInput, KeyError, IndexError, ValueError) as why:
                        raise ProgramFailed(
                            f"mcg6 wrote a line that is none of {words[0]}: {row!r}"
                        ) from why
                    yield answer


def _kind(row: bytes, session: Session) -> Kind:
    """The parts of a line of `mcg6 kinds`."""
    line, _, rest = row.partition(b" ")
    number, _, given, _ = session.sent_as(line)
    return Kind.of(number, line.decode("ascii"), _facts(rest), given)


@lru_cache(maxsize=4096)
def _facts(words: bytes) -> Dict[str, Any]:
    """What a line of `mcg6 kinds` says after the graph, by the names of the fields of `Kind`. The
    lines of a list say the same of many graphs."""
    order, size, word, *more = words.split(b" ")
    facts: Dict[str, Any] = {"order": int(order), "size": int(size), "covered": word != b"uncovered"}
    facts.update(reason=None, deficiency=0, kind=None, bricks=None, braces=None, bicritical=None)
    if word == b"uncovered":
        reason, deficiency = more
        facts.update(reason=reason.decode("ascii"), deficiency=int(deficiency))
        return facts
    bricks, braces, name, answer = more
    if name != b"bicritical":
        raise ValueError(words)
    facts.update(kind=KIND_WORDS[word], bricks=int(bricks), braces=int(braces), bicritical=ANSWERS[answer])
    return facts


def _given(row: bytes, session: Session) -> Any:
    """The graph of a line of `mcg6 select`."""
    return session.sent_as(row)[2]


def _leaf(row: bytes, session: Session) -> ListLeaf:
    """The parts of a line of `mcg6 leaves`."""
    number, text, leaf, kind = row.decode("ascii").split(" ")
    sent = session.number_of(int(number))
    if sent.line != text.encode("ascii") or kind not in ("brick", "brace"):
        raise ValueError(row)
    return ListLeaf(sent.number, text, leaf, kind)


def _component(row: bytes, session: Session) -> ListComponent:
    """The parts of a line of `mcg6 elementary`."""
    number, component, *vertices = row.decode("ascii").split(" ")
    sent = session.number_of(int(number))
    numbers = [int(it) for it in vertices]
    if graph6.decode(component)[0] != len(numbers):
        raise ValueError(row)
    return ListComponent(sent.number, component, tuple(_labels(sent, numbers)))


def _labels(sent: Sent, numbers: List[int]) -> Iterator[Any]:
    """The labels of vertices by number; those of a graph in graph6 are 0, 1, .."""
    vertices = (
        range(graph6.decode(sent.line.decode("ascii"))[0])
        if sent.vertices is None
        else sent.vertices
    )
    for k in numbers:
        if k < 1:
            raise ValueError(k)
        yield vertices[k - 1]
