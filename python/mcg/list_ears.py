"""Ear decompositions of the graphs of a list: `ears_of`."""
from __future__ import annotations

from dataclasses import dataclass, field
from typing import Any, Dict, Iterable, Iterator, List, Mapping, Optional, Tuple

from . import dicts
from .ear_lists import Ear, Ears
from .errors import BadInput
from .graphs import Graph, GraphLike
from .labels import brief, counted
from .lists import SESSION, answers
from .list_matchings import first_edges, pair_of
from .sessions import Session, demand_list
from .sources import Edge


@dataclass(frozen=True, repr=False)
class ListEars:
    """An ear decomposition of a matching covered graph of a list.

    `ears` is the decomposition, as `mcg.ears` has it; of parallel edges it has the first, and
    `ears.graph` is the simple graph with these edges. `index` is the place of the graph among those
    given, from 0, `graph6` is the text of the simple graph, and `given` what was given.

    >>> import mcg
    >>> found = next(mcg.ears_of(["C~"]))
    >>> found
    <ListEars of graph 0, C~: 2 steps, 1 single, 1 double>
    >>> bool(mcg.check_ears("C~", found.ears))
    True
    >>> mcg.ListEars.from_dict(found.to_dict(), "C~") == found
    True
    """

    index: int
    graph6: str
    ears: Ears
    given: Any = field(default=None, compare=False)

    def __repr__(self) -> str:
        steps = f"{counted(len(self.ears), 'step')}, {self.ears.single} single, {self.ears.double} double"
        return f"<ListEars of graph {self.index}, {brief(self.graph6)}: {steps}>"

    def __str__(self) -> str:
        return "\n".join([repr(self), *str(self.ears).split("\n")[1:]])

    def to_dict(self) -> Dict[str, Any]:
        """Returns the answer as a dict: that of `ears`, with `index` and `graph6`."""
        return {**self.ears.to_dict(), "index": self.index, "graph6": self.graph6}

    @classmethod
    def from_dict(cls, given: Mapping[str, Any], graph: GraphLike) -> ListEars:
        """Returns the answer of a dict that `to_dict` made, with the labels of the graph. Raises
        `BadText` for another dict, or a graph with other edges."""
        with dicts.understood("ears"):
            rest = {name: it for name, it in given.items() if name not in ("index", "graph6")}
            index, text = given["index"], given["graph6"]
        return cls(index, text, Ears.from_dict(rest, _simple(Graph(graph))))


def ears_of(
    graphs: Iterable[GraphLike],
    skipped: Optional[List[BadInput]] = None,
    processes: int = 1,
) -> Iterator[ListEars]:
    """Yields an ear decomposition of each matching covered graph, in order, by a process for each
    8,192 graphs. A graph that is not matching covered gives none.

    `mcg6 ears` finds them: two ears are added at once only where no ear decomposition goes on with
    a single one. Parallel edges count once. What is said of `kinds` on memory, on bad graphs and on
    `processes` holds here too.

    >>> import mcg
    >>> [(it.index, len(it.ears), it.ears.double) for it in mcg.ears_of(["Bw", "A_", "C~"])]
    [(1, 0, 0), (2, 2, 1)]
    """
    demand_list(graphs, skipped, processes)
    return answers(["ears"], _ears, graphs, skipped, processes, SESSION)


def _simple(graph: Graph) -> Graph:
    """The simple graph beneath a graph, with the first of parallel edges."""
    edges = list(first_edges(graph).values())
    return graph if len(edges) == graph.size else Graph((graph.vertices, edges))


def _ears(row: bytes, session: Session) -> ListEars:
    """The parts of a line of `mcg6 ears`."""
    number, text, single, double, start, *steps = row.decode("ascii").split(" ")
    sent = session.number_of(int(number))
    graph = _simple(sent.graph)
    edge_of = first_edges(graph)
    listed = [tuple(_ear(path, graph, edge_of) for path in step.split("+")) for step in steps]
    found = Ears(edge_of[pair_of(start)], listed, graph)
    counts = found.single, found.double
    if sent.line != text.encode("ascii") or counts != (int(single), int(double)):
        raise ValueError(row)
    return ListEars(sent.number, text, found, sent.given)


def _ear(path: str, graph: Graph, edge_of: Dict[Tuple[int, int], Edge]) -> Ear:
    """The ear along a path of vertices."""
    walk: List[int] = [int(it) for it in path.split("-")]
    edges = [edge_of[min(it), max(it)] for it in zip(walk, walk[1:])]
    return Ear(graph.label(walk[0]), tuple(edges))
