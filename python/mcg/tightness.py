"""Whether a cut is tight, as `mcg check` decides it."""
from __future__ import annotations

from dataclasses import dataclass, field
from typing import Any, Dict, FrozenSet, Iterable, List, Mapping, Optional

from . import dicts
from .decompositions import check
from .errors import NotCovered, ProgramFailed
from .graphs import Graph, GraphLike
from .labels import Label
from .sources import Edge
from .trees import Cut, Leaf, Tree

REASONS = {
    "empty": "the shore is empty, so no edge is in the cut",
    "whole": "the shore holds every vertex, so no edge is in the cut",
    "even": "the shore has an even number of vertices",
    "trivial": "one shore is a single vertex, so every perfect matching has one edge in the cut",
    "tight": "every perfect matching has exactly one edge in the cut",
    "crossed": "some perfect matching has more than one edge in the cut",
}

# The reasons of tight cuts.
TIGHT = ("trivial", "tight")

# The reason for which `mcg check` refuses the first node of a tree that has one cut.
REFUSED = {2: "even", 3: "trivial", 4: "crossed"}


@dataclass(frozen=True, repr=False)
class Tightness:
    """Whether a cut is tight; it is true if the cut is.

    `reason` is a word: `"empty"`, `"whole"`, `"even"` or `"crossed"` if it is not tight, and
    `"trivial"` or `"tight"` if it is. `str` says it in a sentence. For `"crossed"`, `matching` has
    the edges of a perfect matching with more than one edge in the cut; else it is None. `shore`
    and `graph` are what was asked about.

    >>> import mcg
    >>> found = mcg.is_tight("C~", {0, 1})
    >>> found, bool(found)
    (<Tightness: not tight (even)>, False)
    >>> mcg.Tightness.from_dict(found.to_dict(), "C~") == found
    True
    """

    tight: bool
    reason: str
    matching: Optional[List[Edge]] = field(hash=False)
    shore: FrozenSet[Label]
    graph: Graph

    def __bool__(self) -> bool:
        return self.tight

    def __repr__(self) -> str:
        word = "tight" if self.tight else "not tight"
        return f"<Tightness: {word}>" if word == self.reason else f"<Tightness: {word} ({self.reason})>"

    def __str__(self) -> str:
        return f"{'tight' if self.tight else 'not tight'}: {REASONS[self.reason]}"

    def to_dict(self) -> Dict[str, Any]:
        """Returns the answer as a dict with the names of its fields, by the rules of `mcg.dicts`."""
        return {
            **dicts.head(self.graph),
            "tight": self.tight,
            "reason": self.reason,
            "matching": dicts.edge_numbers(self.graph, self.matching),
            "shore": self.graph.numbers(self.shore),
        }

    @classmethod
    def from_dict(cls, given: Mapping[str, Any], graph: GraphLike) -> Tightness:
        """Returns the answer of a dict that `to_dict` made, with the labels of the graph. Raises
        `BadText` for another dict, or a graph with other edges."""
        numbered = dicts.numbered(given, graph)
        with dicts.understood("a tightness"):
            matching = None if given["matching"] is None else numbered.edge_list(given["matching"])
            shore, reason = numbered.labels(given["shore"]), given["reason"]
            if reason not in REASONS:
                raise ValueError(reason)
            made = cls(reason in TIGHT, reason, matching, shore, numbered)
        dicts.demand_same(made.to_dict(), given)
        return made


def is_tight(graph: GraphLike, shore: Iterable[Label]) -> Tightness:
    """Returns whether the cut with this shore is tight in a matching covered graph, and why.

    A cut is tight if both shores are odd and every perfect matching has exactly one edge in it. It
    is decided by `mcg check`, which is asked about a tree with this one cut. Only an empty shore
    and one that holds every vertex cannot be asked about; the package tells these two itself.
    Raises `NotCovered`, `BadText` for a label that is not a vertex, `BadGraph`, `TooLarge` and
    the exceptions on programs.

        >>> import mcg
        >>> hexagon = [(0, 1), (1, 2), (2, 3), (3, 4), (4, 5), (5, 0)]
        >>> print(mcg.is_tight(hexagon, {0, 1, 2}))
        tight: every perfect matching has exactly one edge in the cut
        >>> mcg.is_tight(hexagon, {0, 2, 4}).matching
        [(0, 1), (2, 3), (4, 5)]
    """
    numbered = Graph(graph)
    named = numbered.labels(numbered.numbers(shore))
    plain = {0: "empty", numbered.order: "whole"}.get(len(named))
    tree: Tree = Leaf() if plain else Cut(named, Leaf(), Leaf())
    found = check(numbered, tree)
    if found.reason:
        raise NotCovered(found.reason, found.witness)
    if plain:
        return Tightness(False, plain, None, named, numbered)
    refused = found.refusal
    if refused is None or refused.node > 1:
        return Tightness(True, "tight", None, named, numbered)
    reason = REFUSED.get(refused.why)
    if reason is None:
        raise ProgramFailed(f"mcg check refused a cut at the root for reason {refused.why}")
    return Tightness(reason in TIGHT, reason, refused.matching, named, numbered)
