"""Whether a list of ears is an ear decomposition: `check_ears`."""
from __future__ import annotations

import re
from dataclasses import dataclass, field, replace
from typing import Any, Dict, List, Mapping, Optional

from . import dicts, report_texts, words
from .analysis import verdict
from .ear_lists import Ears
from .ear_places import fault_place
from .graphs import Graph, GraphLike
from .programs import reported, run, understood
from .sources import Edge

# The fields of an `EarsCheck` that are numbers and texts.
PLAIN = ("accepted", "steps", "single", "double", "step", "why", "ear", "reason")


@dataclass(frozen=True, repr=False)
class EarsCheck:
    """What `check_ears` found; it is true if the list was accepted.

    `accepted`; if it was, the numbers of `steps`, `single` and `double` ones; if not, the number
    of the first bad `step` from 1, `why` by the table of docs/FORMATS.md from 1 to 7, and for 6
    and 7 the `edge` that shows it; or if the graph is not matching covered, `reason` and
    `witness` as `NotCovered` has them. If the list is known, `ear` says at which ear of a step
    of two the error is, 1 or 2, and `at` is the edge of the ear at which it shows. `str` says all
    of this in words, with what would be right.

    >>> import mcg
    >>> edges = [("a", "b"), ("b", "c"), ("c", "d"), ("d", "a")]
    >>> found = mcg.check_ears(edges, mcg.Ears(edges[0], [(mcg.Ear("b", (edges[1], edges[2])),)]))
    >>> print(found)
    the list is not an ear decomposition; at step 1: the ear has an even number of edges (take a path of odd length)
    """

    accepted: bool
    steps: Optional[int] = None
    single: Optional[int] = None
    double: Optional[int] = None
    step: Optional[int] = None
    why: Optional[int] = None
    edge: Optional[Edge] = None
    reason: Optional[str] = None
    witness: Any = None
    ear: Optional[int] = None
    at: Optional[Edge] = None
    graph: Optional[Graph] = field(default=None, compare=False)

    def __bool__(self) -> bool:
        return self.accepted

    def __repr__(self) -> str:
        if self.accepted:
            return (
                f"<EarsCheck: accepted, {self.steps} steps, {self.single} single, {self.double} double>"
            )
        if self.step is not None:
            return f"<EarsCheck: refused at step {self.step}, reason {self.why}>"
        return f"<EarsCheck: not matching covered ({self.reason})>"

    def __str__(self) -> str:
        if self.step is not None:
            return words.ears_words(self)
        return repr(self) if self.accepted else words.uncovered_words(self.reason, self.witness)

    def to_dict(self) -> Dict[str, Any]:
        """Returns the answer as a dict with the names of its fields, by the rules of `mcg.dicts`."""
        graph = dicts.graph_for("answers", self.graph)
        edges = {name: getattr(self, name) for name in ("edge", "at")}
        return {
            **dicts.head(graph),
            **{name: getattr(self, name) for name in PLAIN},
            **{name: None if it is None else graph.edge_number(it) for name, it in edges.items()},
            "witness": dicts.witness(graph, self.reason, self.witness),
        }

    @classmethod
    def from_dict(cls, given: Mapping[str, Any], graph: GraphLike) -> EarsCheck:
        """Returns the answer of a dict that `to_dict` made, with the labels of the graph. Raises
        `BadText` for another dict, or a graph with other edges."""
        numbered = dicts.numbered(given, graph)
        with dicts.understood("an ears check"):
            values: Dict[str, Any] = {name: given[name] for name in PLAIN}
            for name in ("edge", "at"):
                values[name] = None if given[name] is None else numbered.edge(given[name])
            values["witness"] = dicts.read_witness(numbered, given["reason"], given["witness"])
            made = cls(**values, graph=numbered)
        dicts.demand_same(made.to_dict(), given)
        return made

    @classmethod
    def from_text(cls, text: str, graph: GraphLike, listed: Optional[Ears] = None) -> EarsCheck:
        """Returns the report of `mcg checkears` in the labels of the graph; with the list, a
        refusal has its ear and its edge. Raises `BadText`."""
        return _understood(report_texts.lines_of(text), Graph(graph), listed)


def check_ears(graph: GraphLike, listed: Ears) -> EarsCheck:
    """Returns whether a list of ears is an ear decomposition of the graph, and if not, its first
    error. Raises `BadGraph`, `TooLarge`, `BadText`, and the exceptions on programs.

    >>> import mcg
    >>> mcg.check_ears("C~", mcg.ears("C~"))
    <EarsCheck: accepted, 2 steps, 1 single, 1 double>
    """
    numbered = Graph(graph)
    if not isinstance(listed, Ears):
        raise TypeError("the second argument is an Ears; Ears.from_text(text, graph) reads a text")
    files = {"graph": numbered.to_text(), "ears": listed.to_text(numbered)}
    status, report = run("checkears", list(files), files)
    with reported("checkears", status):
        return _understood(report, numbered, listed)


def _understood(report: List[str], graph: Graph, listed: Optional[Ears]) -> EarsCheck:
    with understood("checkears"):
        found = replace(_read(report[0], graph), graph=graph)
        report_texts.demand_exact(report_texts.checkears_lines(found, graph), report)
        if listed is None or found.step is None:
            return found
        ear, at = fault_place(graph, listed, found.step, found.why or 0)
        return replace(found, ear=ear, at=None if at is None else graph.edge(at))


def _read(line: str, graph: Graph) -> EarsCheck:
    if line.startswith("covered no"):
        reason, witness = verdict(line, graph) or ("", None)
        return EarsCheck(False, reason=reason, witness=witness)
    found = re.fullmatch("accepted steps ([0-9]+) single ([0-9]+) double ([0-9]+)", line)
    if found:
        steps, single, double = map(int, found.groups())
        return EarsCheck(True, steps, single, double)
    found = re.fullmatch("refused step ([0-9]+) why ([1-7])(?: edge ([0-9]+))?", line)
    if not found or (found[3] is None) != (int(found[2]) < 6):
        raise ValueError(line)
    edge = graph.edge(int(found[3])) if found[3] else None
    return EarsCheck(False, step=int(found[1]), why=int(found[2]), edge=edge)
