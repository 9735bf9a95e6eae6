"""Maximum matchings with the Gallai-Edmonds sets: `matching` of a graph, `matchings` of a list."""
from __future__ import annotations

from dataclasses import dataclass, field
from typing import Any, Dict, FrozenSet, Iterable, Iterator, List, Mapping, Optional, Tuple

from . import dicts
from .errors import BadInput
from .graphs import Graph, GraphLike
from .labels import Label, brief, counted, shown
from .lists import answers
from .sessions import Session, demand_list
from .sources import Edge
from .words import listed


@dataclass(frozen=True, repr=False)
class Matching:
    """A maximum matching of a graph, and the sets that show that it is maximum.

    `edges` are its edges; of parallel ones it has the first. `D`, `A` and `C` are the
    Gallai-Edmonds sets: D has the vertices that some maximum matching misses, A their other
    neighbours, and C the rest. G - A has `deficiency` more odd components than A has vertices, so
    each matching misses at least so many vertices, and this one misses no more. Which maximum
    matching is found is free.

    `index` is the place of the graph among those given, from 0; `graph6` is the text of the simple
    graph, `graph` the `Graph` that the answer is of, and `given` what was given.

    Source: Lovász and Plummer, "Matching Theory" (1986), section 3.2.

    >>> import mcg
    >>> star = mcg.matching([("m", "a"), ("m", "b"), ("m", "c")])
    >>> star
    <Matching of graph 0, Cs: 1 edge, deficiency 2>
    >>> star.A, star.D
    ({'m'}, {'a', 'b', 'c'})
    >>> mcg.Matching.from_dict(star.to_dict(), star.graph) == star
    True
    """

    index: int
    graph6: str
    edges: List[Edge] = field(hash=False)
    D: FrozenSet[Label]
    A: FrozenSet[Label]
    C: FrozenSet[Label]
    graph: Graph
    given: Any = field(default=None, compare=False)

    @property
    def deficiency(self) -> int:
        """The number of vertices that the matching misses."""
        return self.graph.order - 2 * len(self.edges)

    def __len__(self) -> int:
        return len(self.edges)

    def __iter__(self) -> Iterator[Edge]:
        return iter(self.edges)

    def __bool__(self) -> bool:
        """True, for a matching without edges as well."""
        return True

    def __repr__(self) -> str:
        count = f"{counted(len(self.edges), 'edge')}, deficiency {self.deficiency}"
        return f"<Matching of graph {self.index}, {brief(self.graph6)}: {count}>"

    def __str__(self) -> str:
        sets = [f"{name}: {shown(getattr(self, name))}" for name in "DAC"]
        return "\n".join([repr(self), f"edges: {listed(self.edges)}", *sets])

    def to_dict(self) -> Dict[str, Any]:
        """Returns the answer as a dict with the names of its fields, by the rules of `mcg.dicts`;
        its edges are under `matching`, and `given` is left out."""
        sets = {name: self.graph.numbers(getattr(self, name)) for name in "DAC"}
        about = {"index": self.index, "graph6": self.graph6}
        numbers = dicts.edge_numbers(self.graph, self.edges)
        return {**dicts.head(self.graph), **about, "matching": numbers, **sets}

    @classmethod
    def from_dict(cls, given: Mapping[str, Any], graph: GraphLike) -> Matching:
        """Returns the answer of a dict that `to_dict` made, with the labels of the graph. Raises
        `BadText` for another dict, or a graph with other edges."""
        numbered = dicts.numbered(given, graph)
        with dicts.understood("a matching"):
            d, a, c = (numbered.labels(given[name]) for name in "DAC")
            edges = numbered.edge_list(given["matching"])
            made = cls(given["index"], given["graph6"], edges, d, a, c, numbered)
        dicts.demand_same(made.to_dict(), given)
        return made


def matching(graph: GraphLike) -> Matching:
    """Returns a maximum matching of a graph, with the Gallai-Edmonds sets, as `mcg6 matching` finds it.

    Raises `BadGraph`, `TooLarge` and the exceptions on programs.

    >>> import mcg
    >>> [(len(mcg.matching(text)), mcg.matching(text).deficiency) for text in ("C~", "Bw", "?")]
    [(2, 0), (1, 1), (0, 0)]
    """
    return next(matchings([Graph(graph)]))


def matchings(
    graphs: Iterable[GraphLike],
    skipped: Optional[List[BadInput]] = None,
    processes: int = 1,
) -> Iterator[Matching]:
    """Yields a maximum matching of each graph, in order, by one process for all of them.

    What is said of `kinds` on memory, on bad graphs and on `processes` holds here too.

    >>> import mcg
    >>> [len(it) for it in mcg.matchings(["C~", "Cs", "IheA@GUAo"])]
    [2, 1, 5]
    """
    demand_list(graphs, skipped, processes)
    return answers(["matching"], _matching, graphs, skipped, processes, None)


def _matching(row: bytes, session: Session) -> Matching:
    """The parts of a line of `mcg6 matching`."""
    text, size, *words = row.decode("ascii").split(" ")
    sent = session.text_of(text.encode("ascii"))
    graph, count = sent.graph, int(size)
    first = first_edges(graph)
    edges = [first[pair_of(word)] for word in words[:count]]
    sets: Dict[str, List[int]] = {}
    for word in words[count:]:
        if word in ("D", "A", "C"):
            sets[word] = []
        else:
            sets[list(sets)[-1]].append(int(word))
    if list(sets) != ["D", "A", "C"]:
        raise ValueError(row)
    d, a, c = (graph.labels(it) for it in sets.values())
    return Matching(sent.number, text, edges, d, a, c, graph, sent.given)


def first_edges(graph: Graph) -> Dict[Tuple[int, int], Edge]:
    """Returns the first edge between any two vertices that are adjacent, by their numbers, the lesser
    first."""
    found: Dict[Tuple[int, int], Edge] = {}
    for (a, b), edge in zip(graph.ends, graph.edges):
        found.setdefault((min(a, b), max(a, b)), edge)
    return found


def pair_of(word: str) -> Tuple[int, int]:
    """Returns the numbers of the word `A-B`."""
    a, b = word.split("-")
    return int(a), int(b)
