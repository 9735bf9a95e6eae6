"""The nontrivial tight cuts that Mcg finds: `tight_cuts` of a graph, `cuts` of a list."""
from __future__ import annotations

from dataclasses import dataclass, field
from typing import Any, Dict, FrozenSet, Iterable, Iterator, List, Mapping, Optional

from . import dicts
from .contractions import demand_covered
from .errors import BadInput
from .graphs import Graph, GraphLike
from .labels import Label, brief, shown
from .lists import SESSION, answers
from .sessions import Session, demand_list

ORIGINS = ("barrier", "separation", "flow")


@dataclass(frozen=True, repr=False)
class TightCut:
    """A candidate of a matching covered graph: one of the nontrivial tight cuts that Mcg finds.

    `origin` is `"barrier"` for a cut of a maximal barrier, `"separation"` for one of a 2-separation,
    and `"flow"` for a further one, found for an edge that is in no earlier cut. (A cut of the third
    kind may be a cut of a barrier or of a 2-separation in the sense of the literature.) `shore` is
    the side without the last vertex of `Graph(G).vertices`. Each edge of each nontrivial tight cut
    is in the cut of some candidate, so a graph without candidates is a brick or a brace.

    `index` is the place of the graph among those given, from 0; `graph6` is the text of the simple
    graph, `graph` the `Graph` that the answer is of, and `given` what was given.

    Sources: Edmonds, Lovász and Pulleyblank (1982); Lovász (1987).

    >>> import mcg
    >>> cut = mcg.tight_cuts([(0, 1), (1, 2), (2, 3), (3, 4), (4, 5), (5, 0)])[0]
    >>> cut
    <flow cut of graph 0, EhEG: {1, 2, 3}>
    >>> mcg.TightCut.from_dict(cut.to_dict(), cut.graph) == cut
    True
    """

    index: int
    graph6: str
    origin: str
    shore: FrozenSet[Label]
    graph: Graph
    given: Any = field(default=None, compare=False)

    def __repr__(self) -> str:
        return f"<{self.origin} cut of graph {self.index}, {brief(self.graph6)}: {shown(self.shore)}>"

    def to_dict(self) -> Dict[str, Any]:
        """Returns the answer as a dict with the names of its fields, by the rules of `mcg.dicts`;
        `given` is left out."""
        about = {"index": self.index, "graph6": self.graph6, "origin": self.origin}
        return {**dicts.head(self.graph), **about, "shore": self.graph.numbers(self.shore)}

    @classmethod
    def from_dict(cls, given: Mapping[str, Any], graph: GraphLike) -> TightCut:
        """Returns the answer of a dict that `to_dict` made, with the labels of the graph. Raises
        `BadText` for another dict, or a graph with other edges."""
        numbered = dicts.numbered(given, graph)
        with dicts.understood("a cut"):
            shore = numbered.labels(given["shore"])
            made = cls(given["index"], given["graph6"], given["origin"], shore, numbered)
            if made.origin not in ORIGINS:
                raise ValueError(made.origin)
        dicts.demand_same(made.to_dict(), given)
        return made


def tight_cuts(graph: GraphLike) -> List[TightCut]:
    """Returns the candidates of a matching covered graph, in order; none for a brick or a brace.

    They are found by `mcg6 cuts`, which takes the edges in the order of graph6. `decompose` takes
    them in the order in which they are given, so its picks may choose among other flow cuts. Raises
    `NotCovered`, `BadGraph`, `TooLarge` and the exceptions on programs.

    >>> import mcg
    >>> mcg.tight_cuts("E~rG")                    # two copies of K4 that share the edge 01
    [<separation cut of graph 0, E~rG: {0, 2, 3}>, <separation cut of graph 0, E~rG: {1, 2, 3}>]
    >>> mcg.tight_cuts("C~")
    []
    """
    numbered = Graph(graph)
    found = list(cuts([numbered]))
    if not found:
        demand_covered(numbered)
    return found


def cuts(
    graphs: Iterable[GraphLike],
    skipped: Optional[List[BadInput]] = None,
    processes: int = 1,
) -> Iterator[TightCut]:
    """Yields the candidates of each graph, in order, by a process for each 8,192 graphs.

    A graph that is not matching covered gives none, and so do bricks and braces. What is said of
    `kinds` on memory, on bad graphs and on `processes` holds here too.

    >>> import mcg
    >>> [(it.index, it.origin, set(it.shore)) for it in mcg.cuts(["C~", "EhEG"])][:2]
    [(1, 'flow', {1, 2, 3}), (1, 'flow', {2, 3, 4})]
    """
    demand_list(graphs, skipped, processes)
    return answers(["cuts"], _cut, graphs, skipped, processes, SESSION)


def _cut(row: bytes, session: Session) -> TightCut:
    """The parts of a line of `mcg6 cuts`."""
    number, text, origin, *vertices = row.decode("ascii").split(" ")
    sent = session.number_of(int(number))
    if sent.line != text.encode("ascii") or origin not in ORIGINS or not vertices:
        raise ValueError(row)
    graph = sent.graph
    return TightCut(sent.number, text, origin, graph.labels(map(int, vertices)), graph, sent.given)
