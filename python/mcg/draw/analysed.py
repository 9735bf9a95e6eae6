"""What an analysis says of a graph, as marks of its vertices, pens of its edges, and a key."""
from __future__ import annotations

from typing import Iterable, List, Optional, Sequence, Union

from .. import ear_lists
from ..analysis import Analysis
from ..graphs import Graph
from ..labels import Label
from ..sources import Edge
from . import style
from .graph_scene import Look
from .keys import Entry
from .plain import PlainGraph, name_of
from .scene import Pen

Matching = Union[bool, Iterable[Sequence[object]]]


def braces(names: Iterable[str]) -> str:
    """Returns names as a set is written."""
    return "{" + ", ".join(names) + "}"


def look_of(graph: Graph, analysis: Optional[Analysis], look: Look) -> List[Entry]:
    """Gives a look the marks and pens by an analysis, and returns the key of these.

    A matching covered graph has its sides in ink and white if it is bipartite, and else its
    canonical classes with two vertices or more; another graph has D, A and C. Edges in no perfect
    matching are pale.
    """
    if analysis is None:
        return []
    if analysis.covered:
        return _sides(graph, look) if analysis.bipartite else _classes(graph, analysis, look)
    key = _gallai_edmonds(graph, analysis, look)
    if analysis.allowed and len(analysis.allowed) < graph.size:
        good = {graph.edge_number(edge) - 1 for edge in analysis.allowed}
        for k in set(range(graph.size)) - good:
            look.pens[k] = Pen(stroke=style.PALE, width=style.EDGE_PALE)
        key += [Entry("edge", "in a perfect matching"), Entry("pale", "in none")]
    return key


def _mark(graph: Graph, labels: Iterable[Label], mark: style.Mark, look: Look) -> None:
    for label in labels:
        look.marks[graph.number(label) - 1] = mark


def _sides(graph: Graph, look: Look) -> List[Entry]:
    side = PlainGraph.of(graph).sides() or []
    for v, k in enumerate(side):
        look.marks[v] = style.SIDES[k ^ side[0]]
    return [Entry(style.SIDES[0], "one side"), Entry(style.SIDES[1], "the other side")]


def _classes(graph: Graph, analysis: Analysis, look: Look) -> List[Entry]:
    key = []
    large = [it for it in analysis.classes or [] if len(it) > 1]
    for k, each in enumerate(sorted(large, key=lambda it: (-len(it), graph.numbers(it)))):
        _mark(graph, each, style.class_mark(k), look)
        names = [name_of(graph.label(v)) for v in graph.numbers(each)]
        key.append(Entry(style.class_mark(k), braces(names)))
    if large and sum(map(len, large)) < graph.order:
        key.append(Entry(style.PLAIN, "alone in its class"))
    return key


def _gallai_edmonds(graph: Graph, analysis: Analysis, look: Look) -> List[Entry]:
    key = []
    for name, part in (("D", analysis.D), ("A", analysis.A), ("C", analysis.C)):
        if analysis.D:
            _mark(graph, part, style.GALLAI[name], look)
            if part and len(part) < graph.order:
                key.append(Entry(style.GALLAI[name], name))
    return key


def matched(graph: Graph, matching: Matching, look: Look) -> List[Entry]:
    """Draws the edges of a matching thick, and returns the key of that. `True` stands for the
    perfect matching that an ear decomposition has; the graph must be matching covered then.

    Raises `ValueError` if two of the edges share an end, `NotCovered`, `BadText`.
    """
    edges = list(perfect_matching(graph) if matching is True else matching or [])
    seen: List[Label] = []
    for edge in edges:
        look.pens[graph.edge_number(edge) - 1] = Pen(width=style.EDGE_MATCHED)
        seen += edge[:2]
    if len(set(seen)) < len(seen):
        raise ValueError("two edges of the matching share an end")
    if not edges:
        return []
    return [Entry("thick", "a perfect matching" if len(seen) == graph.order else "a matching")]


def perfect_matching(graph: Graph) -> List[Edge]:
    """Returns the perfect matching that the ear decomposition of a matching covered graph has: its
    first edge, and every second edge of each ear. Raises `NotCovered`."""
    return matching_of(ear_lists.ears(graph))


def matching_of(ears: ear_lists.Ears) -> List[Edge]:
    """Returns the perfect matching that an ear decomposition has."""
    found = [ears.start]
    for step in ears.steps:
        for ear in step:
            found += ear.edges[1::2]
    return found
