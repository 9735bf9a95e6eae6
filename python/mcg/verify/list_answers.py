"""Checks answers on lists of graphs against the definitions: `kinds`, `leaves`, `cuts` and so on."""
from __future__ import annotations

from itertools import chain
from typing import Any, Callable, Iterable, List, Optional, Sequence, Tuple

from .. import graph6
from ..errors import BadInput
from ..graphs import Graph, GraphLike
from ..list_answers import Kind, ListComponent, ListLeaf
from ..list_cuts import TightCut
from ..list_ears import ListEars
from ..list_matchings import Matching
from ..properties import Order, Property, order_word, property_word
from .list_lines import WORDS, Facts
from .list_texts import Listed
from .structure import Wrong, need


def kinds(graphs: Iterable[GraphLike], answers: Iterable[Kind], skips: bool = False) -> None:
    """Checks what `kinds` yields of these graphs, as it comes. Raises `Wrong`.

    A bad graph raises what it raises in `kinds`; with `skips` it is left out, as with a list for
    those that are skipped.

    >>> import mcg
    >>> kinds(["C~", "Bw"], mcg.kinds(["C~", "Bw"]))
    """
    _judge(["kinds"], graphs, answers, _kind_row, skips)


def leaves(
    graphs: Iterable[GraphLike], answers: Iterable[ListLeaf], order: Order = "first", skips: bool = False
) -> None:
    """Checks what `leaves` yields of these graphs with an order of choice. As for `kinds`.

    >>> import mcg
    >>> leaves(["C~", "E~rG"], mcg.leaves(["C~", "E~rG"]))
    """
    _judge(["leaves", order_word(order)], graphs, answers, _leaf_row, skips)


def elementary(graphs: Iterable[GraphLike], answers: Iterable[ListComponent], skips: bool = False) -> None:
    """Checks what `elementary` yields of these graphs. As for `kinds`.

    >>> import mcg
    >>> elementary(["C~", "Ch"], mcg.elementary(["C~", "Ch"]))
    """
    _judge(["elementary"], graphs, answers, _component_row, skips)


def matchings(graphs: Iterable[GraphLike], answers: Iterable[Matching], skips: bool = False) -> None:
    """Checks what `matchings` yields of these graphs; any maximum matching passes. As for `kinds`.

    >>> import mcg
    >>> sets = frozenset(), frozenset(), frozenset({"a", "b"})
    >>> matchings([[("a", "b")]], [mcg.Matching(0, "A_", [("a", "b")], *sets, mcg.Graph([("a", "b")]))])
    """
    _judge(["matching"], graphs, answers, _matching_row, skips)


def cuts(graphs: Iterable[GraphLike], answers: Iterable[TightCut], skips: bool = False) -> None:
    """Checks what `cuts` yields of these graphs: all candidates, and no other cut. As for `kinds`.

    >>> cuts(["C~", "Ch"], [])
    """
    _judge(["cuts"], graphs, answers, _cut_row, skips)


def ears_of(graphs: Iterable[GraphLike], answers: Iterable[ListEars], skips: bool = False) -> None:
    """Checks what `ears_of` yields of these graphs; any ear decomposition passes that has two ears
    only where no other goes on with a single one. As for `kinds`.

    >>> import mcg
    >>> ears_of(["A_"], [mcg.ListEars(0, "A_", mcg.Ears((0, 1), [], mcg.Graph("A_")))])
    """
    _judge(["ears"], graphs, answers, _ears_row, skips)


def select(
    graphs: Iterable[GraphLike], selected: Iterable[GraphLike], what: Property, skips: bool = False
) -> None:
    """Checks what `select` yields of these graphs: the graphs themselves. As for `kinds`.

    >>> given = ["C~", "Bw", "A_"]
    >>> select(given, given[:1], "brick")
    """
    left = iter(selected)
    for index, graph in enumerate(graphs):
        found = _numbered(graph, skips)
        if found is not None and WORDS["select"](Facts(_listed(index, found)), [property_word(what)]):
            need(next(left, None) is graph, f"graph {index} has the property, and does not come")
    need(next(left, None) is None, "a graph comes that does not have the property, or comes twice")


def _numbered(graph: GraphLike, skips: bool) -> Optional[Graph]:
    """The graph with its numbers, None if it is bad and is skipped."""
    try:
        return Graph(graph)
    except BadInput:
        if skips:
            return None
        raise


def _listed(index: int, graph: Graph) -> Listed:
    """A graph as it is sent in a list."""
    text = graph.graph6()
    order, edges = graph6.decode(text)
    return Listed(index + 1, text.encode("ascii"), text, order, tuple(edges))


def _judge(
    words: List[str],
    graphs: Iterable[GraphLike],
    answers: Iterable[Any],
    row_of: Callable[[Any, Graph], str],
    skips: bool,
) -> None:
    """Compares the answers with the lines that are due, graph by graph."""
    left = chain(answers, [None])
    answer = next(left)
    for index, graph in enumerate(graphs):
        numbered = _numbered(graph, skips)
        for due in [] if numbered is None else WORDS[words[0]](Facts(_listed(index, numbered)), words[1:]):
            if answer is None or numbered is None or answer.index != index:
                raise Wrong(f"graph {index}: an answer is missing")
            what = due.judge(f"{row_of(answer, numbered)}\n".encode("latin-1"))
            need(not what, f"graph {index}: {what}")
            answer = next(left)
        need(answer is None or answer.index > index, f"graph {index}: an answer too many, or out of order")
    need(answer is None, "an answer about a graph that is not there")


def _kind_row(it: Kind, _graph: Graph) -> str:
    about = f"{it.graph6} {it.order} {it.size}"
    beside = it.kind, it.bricks, it.braces, it.bicritical
    if not it.covered:
        need(beside == (None, None, None, None), f"graph {it.index}: what covered graphs alone have")
        return f"{about} uncovered {it.reason} {it.deficiency}"
    need((it.reason, it.deficiency) == (None, 0), f"graph {it.index}: a reason or a deficiency")
    bicritical = "yes" if it.bicritical else "no"
    return f"{about} {it.kind} {it.bricks} {it.braces} bicritical {bicritical}"


def _leaf_row(it: ListLeaf, _graph: Graph) -> str:
    return f"{it.index + 1} {it.graph} {it.graph6} {it.kind}"


def _component_row(it: ListComponent, graph: Graph) -> str:
    numbers = [graph.number(v) for v in it.vertices]
    return " ".join(map(str, [it.index + 1, it.graph6, *numbers]))


def _matching_row(it: Matching, graph: Graph) -> str:
    need(it.graph == graph, f"graph {it.index}: the graph")
    pairs = sorted(_ends(graph, edge) for edge in it.edges)
    sets = [" ".join([name, *map(str, graph.numbers(getattr(it, name)))]) for name in "DAC"]
    return " ".join([it.graph6, str(len(pairs)), *(f"{a}-{b}" for a, b in pairs), *sets])


def _cut_row(it: TightCut, graph: Graph) -> str:
    need(it.graph == graph, f"graph {it.index}: the graph")
    return " ".join(map(str, [it.index + 1, it.graph6, it.origin, *graph.numbers(it.shore)]))


def _ears_row(it: ListEars, graph: Graph) -> str:
    steps = it.ears.steps
    for edge in (edge for step in steps for ear in step for edge in ear.edges):
        graph.edge_number(edge)
    paths = [["-".join(str(graph.number(v)) for v in ear.path) for ear in step] for step in steps]
    start = "{}-{}".format(*_ends(graph, it.ears.start))
    head = [it.index + 1, it.graph6, it.ears.single, it.ears.double, start]
    return " ".join(map(str, [*head, *map("+".join, paths)]))


def _ends(graph: Graph, edge: Sequence[Any]) -> Tuple[int, int]:
    """The numbers of the ends of an edge of the graph, the lesser first."""
    a, b = graph.ends[graph.edge_number(edge) - 1]
    return min(a, b), max(a, b)
