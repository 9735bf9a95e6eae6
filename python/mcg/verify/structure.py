"""Checks a report of `analyse` against the definitions."""
from __future__ import annotations

from functools import cached_property
from typing import Any, FrozenSet, Iterable, List, Optional

from ..analysis import Analysis
from ..graphs import Graph, GraphLike
from ..labels import Label
from .candidates import first_candidate
from .places import Place, Simple, members


class Wrong(Exception):
    """A report contradicts the definitions; the words say where."""


def need(holds: bool, what: str) -> None:
    """Raises `Wrong` if something does not hold."""
    if not holds:
        raise Wrong(what)


class Given:
    """The given graph, its vertices numbered from 0, with sets of vertices as bits."""

    def __init__(self, graph: GraphLike) -> None:
        self.graph = Graph(graph)
        self.pairs = [(a - 1, b - 1) for a, b in self.graph.ends]
        self.whole = (1 << self.graph.order) - 1
        self.root = Place(self.pairs, [1 << v for v in range(self.graph.order)])

    @property
    def simple(self) -> Simple:
        """The simple graph beneath."""
        return self.root.simple

    @cached_property
    def is_covered(self) -> bool:
        """Whether the graph is matching covered."""
        return self.simple.is_covered()

    def bits(self, labels: Iterable[Label]) -> int:
        """Returns the set of these vertices."""
        return sum(1 << v - 1 for v in self.graph.numbers(labels))

    def labels(self, bits: int) -> FrozenSet[Label]:
        """Returns the labels of a set of vertices."""
        return self.graph.labels(v + 1 for v in members(bits))

    def is_allowed(self, edge: int) -> bool:
        """Returns whether an edge, by its place from 0, is in a perfect matching."""
        a, b = self.pairs[edge]
        return self.simple.table[a][b]


def analyse(graph: GraphLike, report: Analysis) -> None:
    """Checks what `analyse` reports of a graph. Raises `Wrong`.

    >>> import mcg
    >>> analyse("C~", mcg.analyse("C~"))
    """
    given = Given(graph)
    simple = given.simple
    parts = simple.components()
    need(report.graph == given.graph, "the graph")
    need((report.order, report.size) == (given.graph.order, given.graph.size), "order and size")
    need(report.components == len(parts), "the number of components")
    need(report.bipartite == (simple.side is not None), "bipartite")
    need(report.matching_number == (simple.order - simple.deficiency) // 2, "the matching number")
    need(report.deficiency == simple.deficiency, "the deficiency")
    _gallai_edmonds(given, report)
    allowed = [edge for k, edge in enumerate(given.graph.edges) if given.is_allowed(k)]
    need(report.allowed == allowed, "the allowed edges")
    need(report.covered == given.is_covered, "covered")
    verdict(given, report.covered, report.reason, report.witness)
    if report.covered:
        _structure(given, report)
    else:
        listed = (report.classes, report.bicritical, report.equivalent_pair, report.cut_pair)
        need(set(listed) | {report.kind, report.shore} == {None}, "lines for covered graphs alone")


def _gallai_edmonds(given: Given, report: Analysis) -> None:
    """D has the vertices that some maximum matching misses, A their other neighbours, C the rest."""
    simple = given.simple
    missed = sum(1 << v for v, is_missed in enumerate(simple.missed) if is_missed)
    near = 0
    for v in members(missed):
        near |= simple.near[v]
    near &= ~missed
    for name, wanted in (("D", missed), ("A", near), ("C", given.whole & ~missed & ~near)):
        need(getattr(report, name) == given.labels(wanted), f"the set {name}")


def verdict(given: Given, covered: bool, reason: Optional[str], witness: Any) -> None:
    """Checks the first reason why a graph is not matching covered, with what shows it."""
    simple, parts = given.simple, given.simple.components()
    need(covered == given.is_covered, "whether the graph is matching covered")
    if covered:
        need(reason is None and witness is None, "a reason for a covered graph")
    elif reason == "order":
        need(simple.order < 2 and witness is None, "the reason order")
    elif reason == "parts":
        need(simple.order >= 2 and len(parts) > 1, "the reason parts")
        last = given.graph.vertices[next(members(given.whole & ~parts[0]))]
        need(witness == (given.graph.vertices[0], last), "the first vertices in different components")
    elif reason == "berge":
        need(simple.order >= 2 and len(parts) == 1 and simple.deficiency > 0, "the reason berge")
        without = simple.components(given.bits(witness))
        odd = sum(bin(part).count("1") % 2 for part in without)
        need(odd - len(witness) == simple.deficiency, "the Berge set")
    else:
        need(reason == "edge" and len(parts) == 1 and not simple.deficiency, "the reason edge")
        place = given.graph.edge_number(witness) - 1
        first = next(k for k in range(given.graph.size) if not given.is_allowed(k))
        need(place == first, "the first edge that is in no perfect matching")


def _structure(given: Given, report: Analysis) -> None:
    """The lines for matching covered graphs."""
    simple = given.simple
    need(report.classes == _classes(given), "the canonical partition")
    first = simple.first_equivalent()
    need(report.bicritical == (first is None), "bicritical")
    need(report.equivalent_pair == _named(given, first), "the first equivalent pair")
    need(report.cut_pair == _named(given, simple.first_cut_pair()), "the first cut pair")
    if report.kind == "composite":
        shore = first_candidate(given.root, [(min(it), max(it)) for it in given.pairs])
        need(report.shore is not None and shore is not None, "a composite graph has a nontrivial tight cut")
        need(given.bits(report.shore or ()) == shore, "the shore is not that of candidate 0")
    else:
        need(report.shore is None, "a shore for a brick or a brace")
        is_it = simple.is_brick() if report.kind == "brick" else simple.is_brace()
        need(report.kind in ("brick", "brace") and is_it, f"the kind {report.kind}")


def _classes(given: Given) -> List[FrozenSet[Label]]:
    """The classes of a matching covered graph, by their first vertices."""
    table, left, found = given.simple.table, given.whole, []
    while left:
        v = next(members(left))
        one = 1 << v | sum(1 << w for w in members(left) if w != v and not table[v][w])
        found.append(given.labels(one))
        left &= ~one
    return found


def _named(given: Given, pair: Optional[Any]) -> Optional[Any]:
    return pair if pair is None else tuple(given.graph.vertices[v] for v in pair)
