"""Contractions of graphs: `contract` shrinks a set of vertices, and `retract` removes degree two.

They need no theorem: the package makes them itself, by counting degrees. That a graph is matching
covered, as `retract` demands, is decided by `mcg analyse`.
"""
from __future__ import annotations

from dataclasses import dataclass, field
from typing import Any, Dict, FrozenSet, Iterable, List, Mapping, NamedTuple, Sequence, Tuple

from . import dicts
from .analysis import analyse
from .errors import BadGraph, NotCovered
from .graphs import Graph, GraphLike
from .labels import Label, counted


@dataclass(frozen=True, repr=False)
class Contraction:
    """A graph in which sets of vertices of a given graph have become single vertices.

    `graph` is the contraction, a `Graph`, and `given` the graph that it is made of. `sets` are the
    sets of vertices of the given graph that were contracted. Each of them labels its new vertex;
    all other vertices keep their labels. Each edge is a triple (a, b, edge), whose key is the edge
    of the given graph that it stands for. Edges within a set are left out. The vertices are in the
    order of their highest-numbered members.

    `image` has, for each vertex of the given graph, the vertex of the contraction that holds it.

    >>> import mcg
    >>> made = mcg.retract([("a", "b"), ("b", "c"), ("c", "d"), ("d", "a")])
    >>> made
    <Contraction of 4 vertices to 2, 4 edges to 2>
    >>> made.image["a"]
    {'a', 'b', 'd'}
    >>> mcg.Contraction.from_dict(made.to_dict(), made.given) == made
    True
    """

    graph: Graph
    sets: List[FrozenSet[Label]] = field(hash=False)
    image: Dict[Label, Label] = field(hash=False)
    given: Graph

    def __repr__(self) -> str:
        sizes = counted(self.given.order, "vertex", "vertices"), counted(self.given.size, "edge")
        return "<Contraction of {} to {}, {} to {}>".format(
            sizes[0], self.graph.order, sizes[1], self.graph.size
        )

    def to_dict(self) -> Dict[str, Any]:
        """Returns the contraction as a dict, by the rules of `mcg.dicts`: `sets` are those that were
        contracted, and `kept` the edges of the given graph that are left."""
        kept = [self.given.edge_number(key) for _, _, key in self.graph.edges]
        sets = [self.given.numbers(it) for it in self.sets]
        return {**dicts.head(self.given), "sets": sets, "kept": kept}

    @classmethod
    def from_dict(cls, given: Mapping[str, Any], graph: GraphLike) -> Contraction:
        """Returns the contraction of a dict that `to_dict` made, with the labels of the graph.
        Raises `BadText` for another dict, or a graph with other edges."""
        numbered = dicts.numbered(given, graph)
        with dicts.understood("a contraction"):
            made = contracted(numbered, [frozenset(it) for it in given["sets"]])
        dicts.demand_same(made.to_dict(), given)
        return made


class Contractions(NamedTuple):
    """The two contractions at a cut with the shore X.

    In `kept`, which is G/X̄, the vertices of X are kept and all others are one vertex; in `merged`,
    which is G/X, the vertices of X are one vertex.

    >>> import mcg
    >>> mcg.contract("E~rG", {0, 2, 3}).merged
    <Contraction of 6 vertices to 4, 11 edges to 8>
    """

    kept: Contraction
    merged: Contraction


def contract(graph: GraphLike, shore: Iterable[Label]) -> Contractions:
    """Returns the two contractions of a graph at the cut with this shore.

    Of the two vertices that are new, each is labelled by the frozenset of the vertices that it
    holds. The cut need not be tight; `is_tight` says whether it is. No program is asked. Raises
    `ValueError` if the shore is empty or holds every vertex, `BadText` for a label that is not a
    vertex, and `BadGraph`.

        >>> import mcg
        >>> kept, merged = mcg.contract([(0, 1), (1, 2), (2, 3), (3, 0)], {0, 1, 2})
        >>> kept.graph.vertices
        (0, 1, 2, {3})
        >>> merged.graph.edges
        (({0, 1, 2}, 3, (2, 3)), (3, {0, 1, 2}, (3, 0)))
    """
    numbered = Graph(graph)
    inside = frozenset(numbered.numbers(shore))
    outside = frozenset(range(1, numbered.order + 1)) - inside
    if not inside or not outside:
        raise ValueError("a contraction needs vertices on both sides of the cut")
    return Contractions(contracted(numbered, [outside]), contracted(numbered, [inside]))


def retract(graph: GraphLike) -> Contraction:
    """Returns the retract of a matching covered graph.

    As long as a vertex has degree two and two neighbours, it is contracted with both of them; the
    first such vertex is taken each time, by the order of `Contraction.graph`. The retract is
    unique up to isomorphism (Carvalho, Lucchesi and Murty, "How to build a brick", 2006). An even
    cycle becomes two vertices with two edges. The package counts the degrees; that the graph is
    matching covered is decided by `mcg analyse`. Raises `NotCovered`, `BadGraph`, `TooLarge` and
    the exceptions on programs.

        >>> import mcg
        >>> made = mcg.retract([(0, 1), (1, 2), (2, 3), (3, 0)])
        >>> made.graph.vertices
        (2, {0, 1, 3})
        >>> made.graph.edges
        (({0, 1, 3}, 2, (1, 2)), (2, {0, 1, 3}, (2, 3)))
    """
    numbered = Graph(graph)
    demand_covered(numbered)
    return contracted(numbered, retracted_sets(numbered.order, numbered.ends))


def demand_covered(graph: Graph) -> str:
    """Returns the kind of a matching covered graph, as `mcg analyse` decides it. Raises
    `NotCovered` for another graph."""
    found = analyse(graph)
    if not found.covered or found.kind is None:
        raise NotCovered(found.reason or "", found.witness)
    return found.kind


def contracted(graph: Graph, sets: Sequence[FrozenSet[int]]) -> Contraction:
    """Returns the contraction of disjoint sets of vertices, given by number."""
    named: List[Tuple[int, Label]] = [(max(it), graph.labels(it)) for it in sets]
    holder = {k: place for (place, _), it in zip(named, sets) for k in it}
    alone = [k for k in range(1, graph.order + 1) if k not in holder]
    labels = dict(sorted(named + [(k, graph.label(k)) for k in alone]))
    holder.update((k, k) for k in alone)
    if len(set(labels.values())) < len(labels):
        raise BadGraph(
            "a new vertex has the label of another vertex: the frozenset of what it holds"
        )
    edges = [
        (labels[holder[a]], labels[holder[b]], edge)
        for (a, b), edge in zip(graph.ends, graph.edges)
        if holder[a] != holder[b]
    ]
    image = {label: labels[holder[k]] for k, label in enumerate(graph.vertices, 1)}
    return Contraction(
        Graph((list(labels.values()), edges)), [graph.labels(it) for it in sets], image, graph
    )


def retracted_sets(order: int, ends: Sequence[Tuple[int, int]]) -> List[FrozenSet[int]]:
    """Returns the sets of vertices that the retract of a graph merges. Takes time in the product
    of the numbers of vertices and edges."""
    holder = list(range(order + 1))
    while True:
        near: Dict[int, List[int]] = {k: [] for k in holder[1:]}
        for a, b in ends:
            if holder[a] != holder[b]:
                near[holder[a]].append(holder[b])
                near[holder[b]].append(holder[a])
        middle = next(
            (k for k in sorted(near) if len(near[k]) == 2 and near[k][0] != near[k][1]), None
        )
        if middle is None:
            break
        merged = {middle, *near[middle]}
        holder = [max(merged) if it in merged else it for it in holder]
    sets = [frozenset(k for k in range(1, order + 1) if holder[k] == it) for it in sorted(near)]
    return [it for it in sets if len(it) > 1]
