"""Answers as dicts of lists, numbers and texts, for JSON, YAML and the like.

Each dict of an answer on one graph begins with `vertices`, the labels of the graph, and `edges`,
the two ends of each edge. Everywhere else a vertex or an edge is its number, counted from 1 as
in the reports: vertex k is `vertices[k - 1]`, and edge k is `edges[k - 1]`. A set is a list in
increasing order, and what is not known is None. So `json.dump` takes the dict if it takes the
labels, and `from_dict` takes the labels from the graph that it is given.
"""
from __future__ import annotations

from contextlib import contextmanager
from typing import Any, Dict, Iterator, List, Mapping, Optional

from .errors import BadText
from .graphs import Graph, GraphLike


def head(graph: Graph) -> Dict[str, Any]:
    """Returns how the dict of an answer on that graph begins."""
    return {"vertices": list(graph.vertices), "edges": [list(it) for it in graph.ends]}


def graph_for(what: str, own: Optional[Graph], given: Optional[GraphLike] = None) -> Graph:
    """Returns the graph by whose numbers an answer is written: the one given, or the answer's own.
    Raises `ValueError` if there is none."""
    if given is not None:
        return Graph(given)
    if own is None:
        raise ValueError(f"{what} made by hand have no graph; give it: to_dict(graph)")
    return own


def numbered(given: Mapping[str, Any], graph: GraphLike) -> Graph:
    """Returns the graph as a `Graph`, if its edges are those of the dict. Raises `BadText`."""
    found = Graph(graph)
    with understood("the head"):
        order, ends = len(given["vertices"]), [list(it) for it in given["edges"]]
    if (order, len(ends)) != (found.order, found.size):
        sizes = f"{order} vertices and {len(ends)} edges, and not {found.order} and {found.size}"
        raise BadText(f"the dict is on another graph, with {sizes}")
    for k, (one, other) in enumerate(zip(ends, found.ends), 1):
        if one != list(other):
            raise BadText(
                f"the dict is on another graph: edge {k} joins {one} there, and {list(other)} here"
            )
    return found


@contextmanager
def understood(what: str) -> Iterator[None]:
    """Raises `BadText` if what is read inside is not what `to_dict` writes."""
    try:
        yield
    except (KeyError, IndexError, TypeError, ValueError, AttributeError) as why:
        raise BadText(f"not a dict that to_dict wrote: {what}: {why!r}") from None


def demand_same(made: Mapping[str, Any], given: Mapping[str, Any]) -> None:
    """Raises `BadText` if the dict that an answer has is not the one that it was read from, the
    labels aside."""
    for name in [*made, *given]:
        if name != "vertices" and (name not in made or name not in given or made[name] != given[name]):
            raise BadText(f"not a dict that to_dict wrote: {name!r}")


def witness(graph: Graph, reason: Optional[str], shown: Any) -> Any:
    """Returns what shows that a graph is not matching covered, in numbers."""
    if reason == "parts":
        return [graph.number(it) for it in shown]
    if reason == "berge":
        return graph.numbers(shown)
    return graph.edge_number(shown) if reason == "edge" else None


def read_witness(graph: Graph, reason: Optional[str], numbers: Any) -> Any:
    """Returns it in labels."""
    if reason == "parts":
        return tuple(graph.label(k) for k in numbers)
    if reason == "berge":
        return graph.labels(numbers)
    return graph.edge(numbers) if reason == "edge" else None


def edge_numbers(graph: Graph, edges: Optional[Any]) -> Optional[List[int]]:
    """Returns the numbers of edges, in their order."""
    return None if edges is None else [graph.edge_number(it) for it in edges]
