"""Larger graphs from given ones: `bisubdivide` and `splice`.

They need no theorem, so the package makes them itself and asks no program.
"""
from __future__ import annotations

from typing import Any, Dict, List, Mapping, Sequence, Tuple

from .errors import BadText
from .graphs import Graph, GraphLike
from .labels import Label
from .sources import Edge


def bisubdivide(graph: GraphLike, edge: Sequence[Any]) -> Graph:
    """Returns the graph with an edge replaced by a path of length three.

    The two new vertices are labelled (edge, 0), next to `edge[0]`, and (edge, 1), next to
    `edge[1]`, where `edge` is written as the graph has it. They come after all others. If the
    edge has a key, the three new edges have the same key. If the given graph is matching covered
    and has more than one edge, the result is matching covered. No program is asked. Raises
    `BadText` if it is not an edge of the graph, and `BadGraph`.

        >>> import mcg
        >>> made = mcg.bisubdivide([("a", "b", 1), ("a", "b", 2)], ("a", "b", 2))
        >>> made.vertices
        ('a', 'b', (('a', 'b', 2), 0), (('a', 'b', 2), 1))
        >>> made.size
        4
    """
    numbered = Graph(graph)
    place = numbered.edge_number(edge) - 1
    old = numbered.edges[place]
    path = [old[0], (old, 0), (old, 1), old[1]]
    new = [(u, v, *old[2:]) for u, v in zip(path, path[1:])]
    edges = [*numbered.edges[:place], *new, *numbered.edges[place + 1 :]]
    return Graph(([*numbered.vertices, (old, 0), (old, 1)], edges))


def splice(
    first: GraphLike,
    u: Label,
    second: GraphLike,
    v: Label,
    pairing: Mapping[Edge, Edge],
) -> Graph:
    """Returns the splice of two graphs at the vertices u and v.

    The two vertices are deleted, and each edge e = au of the first graph is joined with the edge
    f = vb of the second that `pairing` maps it to: a and b become adjacent. `pairing` is a
    bijection from the edges at u to the edges at v.

    A vertex a of the first graph is labelled (0, a), and a vertex b of the second (1, b). Each
    edge is a triple whose key says where it comes from: (0, e) or (1, f) for an edge of one of
    the graphs, and (e, f) for two that were joined. The contractions at the cut between the two
    sides are the given graphs. If both are matching covered, so is the splice. No program is
    asked. Raises `ValueError` if `pairing` is not such a bijection, `BadText` if u or v is not a
    vertex, and `BadGraph`.

        >>> import mcg
        >>> pairing = {(0, 3): (0, 1), (1, 3): (0, 2), (2, 3): (0, 3)}
        >>> prism = mcg.splice("C~", 3, "C~", 0, pairing)
        >>> prism.vertices
        ((0, 0), (0, 1), (0, 2), (1, 1), (1, 2), (1, 3))
        >>> prism.edges[-1]
        ((0, 2), (1, 3), ((2, 3), (0, 3)))
        >>> mcg.analyse(prism).kind
        'brick'
    """
    one, other = Graph(first), Graph(second)
    places = one.number(u), other.number(v)
    images = _images(one, places[0], other, places[1], pairing)
    vertices = [(0, a) for a in one.vertices if a != u] + [(1, b) for b in other.vertices if b != v]
    edges: List[Edge] = []
    for side, graph, place in ((0, one, places[0]), (1, other, places[1])):
        for edge, ends in zip(graph.edges, graph.ends):
            if place not in ends:
                edges.append(((side, edge[0]), (side, edge[1]), (side, edge)))
    for k, image in images.items():
        e, f = one.edge(k), other.edge(image)
        edges.append(
            ((0, _across(one, k, places[0])), (1, _across(other, image, places[1])), (e, f))
        )
    return Graph((vertices, edges))


def _across(graph: Graph, number: int, vertex: int) -> Label:
    """The other end of an edge at a vertex, both given by number."""
    a, b = graph.ends[number - 1]
    return graph.label(b if a == vertex else a)


def _images(
    one: Graph, u: int, other: Graph, v: int, pairing: Mapping[Edge, Edge]
) -> Dict[int, int]:
    """The pairing by numbers of edges, in the order of the edges at u."""
    try:
        pairs = sorted((one.edge_number(e), other.edge_number(f)) for e, f in pairing.items())
    except BadText as fault:
        raise ValueError(f"pairing: {fault}") from None
    for listed, graph, vertex, what in (
        ([e for e, _ in pairs], one, u, "first"),
        ([f for _, f in pairs], other, v, "second"),
    ):
        due = [k for k, ends in enumerate(graph.ends, 1) if vertex in ends]
        if sorted(listed) != due:
            name = graph.label(vertex)
            raise ValueError(
                f"pairing has to name each edge at {name!r} of the {what} graph once: "
                f"{graph.edge_list(due)!r}"
            )
    return dict(pairs)
