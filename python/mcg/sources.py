"""What can be given as a graph: graphs of NetworkX and Sage, vertices and edges, and graph6 text."""
from __future__ import annotations

from collections import Counter
from typing import (
    TYPE_CHECKING,
    Any,
    Dict,
    FrozenSet,
    Hashable,
    Iterable,
    List,
    Sequence,
    Tuple,
    Union,
)

from . import graph6
from .errors import BadGraph
from .labels import Label, brief, shown

if TYPE_CHECKING:
    from typing import Protocol

    class NetworkXGraph(Protocol):
        """What is used of a graph of NetworkX."""

        def is_directed(self) -> bool: ...

        def is_multigraph(self) -> bool: ...

        @property
        def nodes(self) -> Any: ...

        @property
        def edges(self) -> Any: ...

    class SageGraph(Protocol):
        """What is used of a graph of Sage."""

        def is_directed(self) -> bool: ...

        def allows_multiple_edges(self) -> bool: ...

        def vertex_iterator(self) -> Iterable[Hashable]: ...

        def edge_iterator(self, **options: Any) -> Iterable[Tuple[Any, Any, Any]]: ...


Edge = Tuple[Any, ...]
Source = Union[
    str,
    bytes,
    "NetworkXGraph",
    "SageGraph",
    Tuple[Iterable[Label], Iterable[Sequence[Any]]],
    Iterable[Sequence[Any]],
]


def edge_key(edge: Edge) -> Tuple[FrozenSet[Label], Edge]:
    """What two edges share only if they are the same: the set of the ends, and the key if any."""
    return frozenset(edge[:2]), edge[2:]


def edge_numbers(edges: Sequence[Edge]) -> Dict[Tuple[FrozenSet[Label], Edge], int]:
    found: Dict[Tuple[FrozenSet[Label], Edge], int] = {}
    for k, edge in enumerate(edges, 1):
        if found.setdefault(edge_key(edge), k) != k:
            raise BadGraph(f"the edge {shown(edge)} is given twice; parallel edges need keys, (u, v, key)")
    return found


def parts_of(source: Any) -> Tuple[Sequence[Label], Sequence[Edge]]:
    """The vertices and the edges of what is given as a graph."""
    if isinstance(source, (str, bytes)):
        text = source if isinstance(source, str) else source.decode("latin-1")
        if text.lstrip().startswith(("p mcg", "c ")):
            raise BadGraph("a text is taken as graph6, and this is not; Graph.from_text(text) reads a graph file")
        order, ends = graph6.decode(text)
        return range(order), [(a - 1, b - 1) for a, b in ends]
    if hasattr(source, "vertex_iterator") and hasattr(source, "edge_iterator"):
        return _sage_parts(source)
    if hasattr(source, "is_multigraph") and hasattr(source, "nodes"):
        _refuse_directed(source)
        edges = source.edges(keys=True) if source.is_multigraph() else source.edges()
        return list(source.nodes), [tuple(it) for it in edges]
    if isinstance(source, tuple) and len(source) == 2:
        return _listed(source[0], "vertices"), [_edge(it) for it in _listed(source[1], "edges")]
    edges = [_edge(it) for it in _listed(source, "edges")]
    try:
        return list(dict.fromkeys(end for edge in edges for end in edge[:2])), edges
    except TypeError as why:
        raise BadGraph(f"labels and keys must be hashable: {why}") from None


def _listed(source: Any, what: str) -> List[Any]:
    try:
        return list(source)
    except TypeError:
        raise BadGraph(f"not a graph: {brief(shown(source))} is not an iterable of {what}") from None


def _edge(it: Any) -> Edge:
    if isinstance(it, (tuple, list)) and 3 <= len(it) <= 4 and isinstance(it[-1], dict):
        advice = "give the graph itself, or its edges without data=True"
        raise BadGraph(f"an edge is a pair (u, v) or a triple (u, v, key), without attributes: {advice}; this is {shown(it)}")
    if not isinstance(it, (tuple, list)) or not 2 <= len(it) <= 3:
        raise BadGraph(f"an edge is a pair (u, v) or a triple (u, v, key), and not {shown(it)}")
    return tuple(it)


def _refuse_directed(source: Any) -> None:
    if source.is_directed():
        raise BadGraph("the graph is directed")


def _sage_parts(source: Any) -> Tuple[Sequence[Label], Sequence[Edge]]:
    _refuse_directed(source)
    vertices = list(source.vertex_iterator())
    try:
        rows = source.edge_iterator(sort_vertices=False)
    except TypeError:  # an older version, which does not sort the ends
        rows = source.edge_iterator()
    triples = [tuple(it) for it in rows]
    if not source.allows_multiple_edges():
        return vertices, [it[:2] for it in triples]
    try:
        if len({edge_key(it) for it in triples}) == len(triples):
            return vertices, triples
    except TypeError:
        pass
    keys: Counter[FrozenSet[Label]] = Counter()
    edges = []
    for u, v, _label in triples:
        pair = frozenset((u, v))
        edges.append((u, v, keys[pair]))
        keys[pair] += 1
    return vertices, edges
