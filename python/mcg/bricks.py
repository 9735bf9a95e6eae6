"""What papers on bricks begin with: removable, b-invariant and thin edges.

An edge e of a matching covered graph G is removable if G − e is matching covered. All are found
by sending the graphs G − e through one process of mcg6. The package decides nothing here but
which edges are parallel: deleting one of several parallel edges leaves the same simple graph.
"""
from __future__ import annotations

from typing import Dict, Iterable, Iterator, List, Sequence, Tuple

from . import graph6
from .contractions import demand_covered, retracted_sets
from .graphs import Graph, GraphLike
from .list_answers import Kind
from .lists import elementary, kinds
from .sources import Edge

Ends = Tuple[int, int]


def removable(graph: GraphLike) -> List[Edge]:
    """Returns the removable edges of a matching covered graph, in the order of the graph: the
    edges e for which G − e is matching covered.

    `mcg analyse` decides whether the graph is matching covered, and `mcg6 kinds` whether the
    graphs G − e are, in one process. Raises `NotCovered`, `BadGraph`, `TooLarge` and the
    exceptions on programs.

        >>> import mcg
        >>> mcg.removable("E~rG")                 # two copies of K4 that share the edge 01
        [(0, 1)]
    """
    numbered = Graph(graph)
    demand_covered(numbered)
    _, rows = _deleted(numbered)
    return [edge for edge, row in zip(numbered.edges, rows) if row.covered]


def b_invariant(graph: GraphLike) -> List[Edge]:
    """Returns the b-invariant edges of a matching covered graph, in the order of the graph: the
    removable edges e for which G − e has as many bricks as G.

    What decides, and what is raised, is as in `removable`; `mcg6 kinds` also counts the bricks.

        >>> import mcg
        >>> mcg.b_invariant("E~rG")
        [(0, 1)]
        >>> len(mcg.removable("IheA@GUAo")), mcg.b_invariant("IheA@GUAo")   # the Petersen graph
        (15, [])
    """
    numbered = Graph(graph)
    demand_covered(numbered)
    return numbered.edge_list(_b_invariant(numbered))


def removable_doubletons(graph: GraphLike) -> List[Tuple[Edge, Edge]]:
    """Returns the removable doubletons of a matching covered graph: the pairs of edges e and f,
    neither of them removable, for which G − e − f is matching covered.

    The edges of a pair and the pairs are in the order of the graph. If e and f are such a pair,
    then each edge of G − e except f is in a perfect matching. So it is enough to look at the
    allowed edges of each G − e: `mcg6 elementary` decides whether they form one matching covered
    graph on all vertices, and if only one edge is missing there, it is f. `mcg6 kinds` decides
    which edges are removable. What is raised is as in `removable`.

        >>> import mcg
        >>> mcg.removable_doubletons("C~")[0]
        ((0, 1), (2, 3))
        >>> len(mcg.removable_doubletons("C~"))
        3
    """
    numbered = Graph(graph)
    demand_covered(numbered)
    _, rows = _deleted(numbered)
    fixed = [k for k, row in enumerate(rows, 1) if not row.covered]
    number_of = {_pair(numbered.ends[k - 1]): k for k in fixed}
    partners = zip(fixed, _missing(numbered, fixed))
    found = {(k, number_of[pair]) for k, pair in partners if pair in number_of}
    pairs = sorted({(min(it), max(it)) for it in found})
    return [(numbered.edge(e), numbered.edge(f)) for e, f in pairs]


def thin(graph: GraphLike) -> List[Edge]:
    """Returns the thin edges of a brick, in the order of the graph: the b-invariant edges e for
    which the retract of G − e is a brick.

    `mcg analyse` decides whether the graph is a brick, and `mcg6 kinds` whether the graphs G − e
    are matching covered, how many bricks they have, and whether their retracts are bricks; the
    package makes the retracts, as `retract` does. Every brick other than K4, the prism and the
    Petersen graph has a thin edge (Carvalho, Lucchesi and Murty, "How to build a brick", 2006).
    Raises `ValueError` for a matching covered graph that is not a brick, and what `removable`
    raises.

        >>> import mcg
        >>> wheel = [(0, k) for k in range(1, 6)] + [(k, k % 5 + 1) for k in range(1, 6)]
        >>> mcg.thin(wheel) == wheel[:5]
        True
    """
    numbered = Graph(graph)
    kind = demand_covered(numbered)
    if kind != "brick":
        raise ValueError(f"thin edges are those of bricks, and the graph is {_with_article(kind)}")
    invariant = _b_invariant(numbered)
    retracts = (_retract(numbered.order, _without(numbered.ends, k)) for k in invariant)
    return [numbered.edge(k) for k, row in zip(invariant, kinds(retracts)) if row.kind == "brick"]


def _with_article(kind: str) -> str:
    return {"brace": "a brace"}.get(kind, f"{kind}: it has a nontrivial tight cut")


def _b_invariant(graph: Graph) -> List[int]:
    """The numbers of the b-invariant edges."""
    whole, rows = _deleted(graph)
    return [k for k, row in enumerate(rows, 1) if row.covered and row.bricks == whole.bricks]


def _pair(ends: Ends) -> Ends:
    return min(ends), max(ends)


def _without(ends: Sequence[Ends], number: int) -> List[Ends]:
    """The ends of all edges but one."""
    return [*ends[: number - 1], *ends[number:]]


def _deleted(graph: Graph) -> Tuple[Kind, List[Kind]]:
    """What `mcg6 kinds` says of the graph and, for each edge, of the graph without this edge."""
    parallel: Dict[Ends, int] = {}
    for ends in graph.ends:
        parallel[_pair(ends)] = parallel.get(_pair(ends), 0) + 1
    alone = [k for k, ends in enumerate(graph.ends, 1) if parallel[_pair(ends)] == 1]
    asked = kinds([graph.graph6(), *_texts_without(graph, alone)])
    whole = next(asked)
    rows = dict(zip(alone, asked))
    return whole, [rows.get(k, whole) for k in range(1, graph.size + 1)]


def _texts_without(graph: Graph, numbers: Iterable[int]) -> Iterator[str]:
    """The graph6 texts of the graph without each of these edges."""
    return (graph6.encode(graph.order, _without(graph.ends, k)) for k in numbers)


def _missing(graph: Graph, numbers: Sequence[int]) -> List[Ends]:
    """For each of these edges e, the ends of the one edge that is in no perfect matching of G − e,
    if the others form a connected graph on all vertices; or else (0, 0)."""
    found: List[Ends] = [(0, 0)] * len(numbers)
    for part in elementary(list(_texts_without(graph, numbers))):
        if len(part.vertices) == graph.order:
            _, allowed = graph6.decode(part.graph6)
            left = set(map(_pair, _without(graph.ends, numbers[part.index]))) - set(allowed)
            if len(left) == 1:
                found[part.index] = left.pop()
    return found


def _retract(order: int, ends: Sequence[Ends]) -> str:
    """The graph6 text of the retract of a graph, given by number."""
    holder = {k: min(it) for it in retracted_sets(order, ends) for k in it}
    names = sorted({holder.get(k, k) for k in range(1, order + 1)})
    place = {name: k for k, name in enumerate(names, 1)}
    at = {k: place[holder.get(k, k)] for k in range(1, order + 1)}
    return graph6.encode(len(names), ((at[a], at[b]) for a, b in ends if at[a] != at[b]))
