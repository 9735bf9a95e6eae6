"""The class of graphs, with their vertices and edges by number."""
from __future__ import annotations

import importlib
import re
from collections import Counter
from typing import Any, Dict, Iterable, List, Sequence, Tuple, Union

from . import graph6, texts
from .errors import LIMIT, BadGraph, BadText, TooLarge
from .graph_texts import read_graph
from .labels import Label, VertexSet, counted, shown
from .sage_graphs import sage_graph
from .sources import Edge, Source, edge_key, edge_numbers, parts_of


class Graph:
    """A graph as the programs see it: vertices and edges in a fixed order, without loops.

    It is made of any of these:

    - a graph of NetworkX or of Sage, not a directed one;
    - a pair (vertices, edges), a tuple of two iterables;
    - any other iterable of edges, whose vertices come in the order in which the edges have them;
    - a text in graph6, with vertices 0, 1, .. as NetworkX and Sage number them.

    Labels are any hashable values. An edge is a pair (u, v), or in a multigraph a triple
    (u, v, key); parallel edges have different keys. Sage's edge labels are the keys if they tell
    all parallel edges apart; if not, the keys are 0, 1, .. among parallel edges.

    Attributes: `vertices`, the labels, vertex k of a report being `vertices[k - 1]`; `edges`, the
    edges as they were given, edge k of a report being `edges[k - 1]`; `ends`, the ends of the
    edges by number. Raises `BadGraph` for anything else. Two are equal if they have the same
    vertices and edges, in any order.

    >>> graph = Graph([("u", "v", "old"), ("u", "v", "new"), ("v", "w")])
    >>> graph, graph.vertices, graph.ends
    (<Graph of 3 vertices, 3 edges>, ('u', 'v', 'w'), ((1, 2), (1, 2), (2, 3)))
    >>> print(graph.to_text(), end="")
    p mcg 3 3
    e 1 2
    e 1 2
    e 2 3
    """

    vertices: Tuple[Label, ...]
    edges: Tuple[Edge, ...]
    ends: Tuple[Tuple[int, int], ...]

    def __init__(self, source: GraphLike) -> None:
        if isinstance(source, Graph):
            self._take(source.vertices, source.edges)
        else:
            self._take(*parts_of(source))

    def _take(self, vertices: Sequence[Label], edges: Sequence[Edge]) -> None:
        self.vertices, self.edges = tuple(vertices), tuple(edges)
        try:
            self._numbers: Dict[Label, int] = {it: k for k, it in enumerate(self.vertices, 1)}
            self._edge_numbers = edge_numbers(self.edges)
        except TypeError as why:
            raise BadGraph(f"labels and keys must be hashable: {why}") from None
        if len(self._numbers) < len(self.vertices):
            twice = next(it for it, count in Counter(self.vertices).items() if count > 1)
            raise BadGraph(f"the vertex {shown(twice)} is given twice", kind=texts.SAME_NAME)
        self.ends = tuple(self._ends_of(edge) for edge in self.edges)

    def _ends_of(self, edge: Edge) -> Tuple[int, int]:
        for it in edge[:2]:
            if it not in self._numbers:
                raise BadGraph(
                    f"the edge {shown(edge)}: {shown(it)} is not a vertex", kind=texts.UNNAMED
                )
        if edge[0] == edge[1]:
            raise BadGraph(f"the edge {shown(edge)} is a loop", kind=texts.LOOP)
        return self._numbers[edge[0]], self._numbers[edge[1]]

    @property
    def order(self) -> int:
        """The number of vertices."""
        return len(self.vertices)

    @property
    def size(self) -> int:
        """The number of edges, parallel ones counted each."""
        return len(self.edges)

    def number(self, label: Label) -> int:
        """Returns the number of a vertex, from 1. Raises `BadText` if it is not one."""
        try:
            return self._numbers[label]
        except (KeyError, TypeError):
            raise BadText(f"{shown(label)} is not a vertex of the graph") from None

    def edge_number(self, edge: Sequence[Any]) -> int:
        """Returns the number of an edge, from 1; its ends may come in either order."""
        try:
            return self._edge_numbers[edge_key(tuple(edge))]
        except (KeyError, TypeError):
            raise BadText(f"{shown(edge)} is not an edge of the graph") from None

    def label(self, number: int) -> Label:
        """Returns the vertex with this number, from 1. Raises `IndexError`."""
        if number < 1:
            raise IndexError(number)
        return self.vertices[number - 1]

    def edge(self, number: int) -> Edge:
        """Returns the edge with this number, from 1. Raises `IndexError`."""
        if number < 1:
            raise IndexError(number)
        return self.edges[number - 1]

    def labels(self, numbers: Iterable[int]) -> VertexSet[Label]:
        """Returns the set of the vertices with these numbers; it lists them in the order of
        `vertices`."""
        return VertexSet(self.label(k) for k in sorted(numbers))

    def numbers(self, labels: Iterable[Label]) -> List[int]:
        """Returns the numbers of these vertices, in increasing order."""
        return sorted(self.number(it) for it in labels)

    def edge_list(self, numbers: Iterable[int]) -> List[Edge]:
        """Returns the edges with these numbers."""
        return [self.edge(k) for k in numbers]

    def to_text(self) -> str:
        """Returns the graph file: version 1, or version 2 with the names v1, v2, .. if it is larger
        than 64 vertices or 512 edges. It has the numbers and not the labels. Raises `TooLarge`."""
        demand_size(self.order, self.size)
        rows = [f"p mcg {self.order} {self.size}"]
        prefix = ""
        if self.order > 64 or self.size > 512:
            prefix = "v"
            rows = [f"p mcg2 {self.order} {self.size}"]
            rows += [f"v v{k}" for k in range(1, self.order + 1)]
        rows += [f"e {prefix}{a} {prefix}{b}" for a, b in self.ends]
        return "\n".join(rows) + "\n"

    @classmethod
    def from_text(cls, text: str) -> Graph:
        """Returns the graph of a graph file, in either version, or of a text in graph6.

        Its edges are triples (u, v, k), k being the number of the edge; its vertices are 1, 2, ..
        or, in version 2, the names. Raises `BadGraph` or `TooLarge` with the line and the kind.
        """
        if is_graph6(text):
            order, ends = graph6.decode(text)
            return cls._numbered(range(1, order + 1), ends)
        return cls._numbered(*read_graph(text))

    @classmethod
    def _numbered(cls, vertices: Sequence[Label], ends: Iterable[Tuple[int, int]]) -> Graph:
        edges = [(vertices[a - 1], vertices[b - 1], k) for k, (a, b) in enumerate(ends, 1)]
        return cls((vertices, edges))

    def graph6(self) -> str:
        """Returns the graph6 text of the simple graph beneath: parallel edges count once."""
        return graph6.encode(self.order, self.ends)

    def to_networkx(self) -> Any:
        """Returns a `networkx.MultiGraph` if an edge has a key, and else a `networkx.Graph`."""
        made = new_networkx(any(len(it) == 3 for it in self.edges))
        made.add_nodes_from(self.vertices)
        for u, v, *key in self.edges:
            # (`add_edges_from` can take a key of two-item parts for attributes)
            made.add_edge(u, v, *key)
        return made

    def to_sage(self) -> Any:
        """Returns a graph of Sage. If an edge has a key, it allows multiple edges, and the labels
        of its edges are the keys. Needs Sage. Raises `ValueError` for a vertex None, which Sage
        cannot have."""
        is_multigraph = any(len(it) == 3 for it in self.edges)
        edges = [(it[0], it[1], it[2] if len(it) == 3 else None) for it in self.edges]
        return sage_graph(self.vertices, edges, is_multigraph)

    def __eq__(self, other: object) -> bool:
        if not isinstance(other, Graph):
            return NotImplemented
        return self._parts() == other._parts()

    def __hash__(self) -> int:
        return hash(self._parts())

    def _parts(self) -> Tuple[Any, Any]:
        """What two graphs share if they are equal: the vertices and the edges, in any order."""
        return frozenset(self._numbers), frozenset(self._edge_numbers)

    def is_numbered_as(self, other: Graph) -> bool:
        """Returns whether the graphs are equal and have the same numbers."""
        return (self.vertices, self.edges) == (other.vertices, other.edges)

    def __repr__(self) -> str:
        sizes = counted(self.order, "vertex", "vertices"), counted(self.size, "edge")
        return "<Graph of {}, {}>".format(*sizes)


def is_graph6(text: str) -> bool:
    """Returns whether a text is taken as one in graph6, and not as a graph file."""
    found = re.search(r"(?m)^[ \t\r]*(?!c(?:[ \t\r]|$))[^ \t\r\n]+", text)
    return bool(found and found[0].strip() != "p" and "\n" not in text.strip())


def demand_size(order: int, size: int) -> None:
    """Raises `TooLarge` if the programs do not take a graph of these sizes."""
    if order > graph6.MOST_VERTICES or size > graph6.MOST_EDGES:
        sizes = f"{counted(order, 'vertex', 'vertices')} and {counted(size, 'edge')}"
        most = f"{graph6.MOST_VERTICES} vertices and {graph6.MOST_EDGES:,} edges"
        raise TooLarge(f"the graph has {sizes}, and {most} are the most", kind=LIMIT)


def new_networkx(is_multigraph: bool) -> Any:
    """Returns a new graph of NetworkX."""
    networkx = importlib.import_module("networkx")
    return networkx.MultiGraph() if is_multigraph else networkx.Graph()


GraphLike = Union[Graph, Source]
