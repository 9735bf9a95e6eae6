"""Checks ear decompositions against the definitions, stage by stage: `ears` and `check_ears`."""
from __future__ import annotations

from typing import List, Optional, Sequence, Set, Tuple

from ..ear_checks import EarsCheck
from ..ear_lists import Ear, Ears
from ..graphs import GraphLike
from .places import Simple
from .single_ears import single_ear_exists
from .structure import Given, Wrong, need, verdict

# The number of a step, why it is refused, and the edge that shows it, by its place from 0.
StepFault = Tuple[int, int, Optional[int]]


class Stages:
    """The stages of a list of ears: the edges that are there, and the vertices that they meet. If it
    `is_minimal`, two ears are allowed only where no ear decomposition goes on with a single one."""

    def __init__(self, given: Given, listed: Ears, is_minimal: bool = False) -> None:
        self.given, self.listed, self.is_minimal = given, listed, is_minimal
        self.edges = {given.graph.edge_number(listed.start) - 1}
        self.vertices = set(given.pairs[next(iter(self.edges))])

    def fault(self) -> Optional[StepFault]:
        """Returns the first step that breaks a rule, or the end if edges are left."""
        for number, step in enumerate(self.listed.steps, 1):
            if self.is_minimal and len(step) == 2:
                is_due = not single_ear_exists(self.given, self.edges, self.vertices)
                need(is_due, f"step {number} has two ears, where a single one would do")
            why, added = self._added(step)
            if why:
                return number, why, None
            gap = self._gap(added)
            if gap is not None:
                return number, 6, gap
        left = [k for k in range(self.given.graph.size) if k not in self.edges]
        return (len(self.listed.steps), 7, left[0]) if left else None

    def _added(self, step: Sequence[Ear]) -> Tuple[int, List[int]]:
        """Adds the ears of a step; returns why one of them breaks a rule, or 0, and their edges."""
        inner: Set[int] = set()
        added: List[int] = []
        walks = []
        for ear in step:
            edges = [self.given.graph.edge_number(it) - 1 for it in ear.edges]
            walk = self._walk(self.given.graph.number(ear.vertex) - 1, edges)
            why = 1 if walk is None else self._ear_fault(walk, edges, inner, added)
            if walk is None or why:
                return why, []
            inner |= set(walk[1:-1])
            added += edges
            walks.append(walk)
        self.edges |= set(added)
        self.vertices |= {v for walk in walks for v in walk}
        return 0, sorted(added)

    def _walk(self, first: int, edges: Sequence[int]) -> Optional[List[int]]:
        """The vertices of a path, or None if these edges are not one, in this order; its last
        vertex may be its first."""
        walk = [first]
        for k in edges:
            if walk[-1] not in self.given.pairs[k]:
                return None
            a, b = self.given.pairs[k]
            walk.append(b if walk[-1] == a else a)
        is_path = len(set(walk[:-1])) == len(walk) - 1 and walk[-1] not in walk[1:-1]
        return walk if is_path else None

    def _ear_fault(self, walk: List[int], edges: List[int], inner: Set[int], added: List[int]) -> int:
        """Why an ear breaks a rule, given what the first ear of its step has; 0 if it does not."""
        if len(edges) % 2 == 0:
            return 2
        if walk[0] == walk[-1] or not {walk[0], walk[-1]} <= self.vertices:
            return 3
        if set(walk[1:-1]) & (self.vertices | inner):
            return 4
        return 5 if set(edges) & (self.edges | set(added)) else 0

    def _gap(self, added: Sequence[int]) -> Optional[int]:
        """The first new edge that is in no perfect matching of the stage.

        The other edges of the stage are in one: a perfect matching of the stage before, with
        every second edge of each new ear.
        """
        place = {v: k for k, v in enumerate(sorted(self.vertices))}
        pairs = [(place[a], place[b]) for a, b in (self.given.pairs[k] for k in self.edges)]
        stage = Simple(len(place), pairs)
        need(stage.deficiency == 0, "a stage has no perfect matching")
        ends = ((k, *(place[v] for v in self.given.pairs[k])) for k in added)
        return next((k for k, a, b in ends if not stage.allows(a, b)), None)


def ears(graph: GraphLike, listed: Ears) -> None:
    """Checks that a list is an ear decomposition of the graph, with two ears only where no ear
    decomposition goes on with a single one, so never in a bipartite graph. Raises `Wrong`.

    >>> import mcg
    >>> ears("C~", mcg.ears("C~"))
    """
    given = Given(graph)
    need(given.is_covered, "the graph is not matching covered")
    fault = Stages(given, listed, is_minimal=True).fault()
    if fault:
        raise Wrong(f"step {fault[0]} breaks rule {fault[1]}")
    need(given.simple.side is None or listed.double == 0, "two ears in a bipartite graph")


def check_ears(graph: GraphLike, listed: Ears, report: EarsCheck) -> None:
    """Checks what `check_ears` reports of a list. Raises `Wrong`.

    >>> import mcg
    >>> listed = mcg.ears("C~")
    >>> check_ears("C~", listed, mcg.check_ears("C~", listed))
    """
    given = Given(graph)
    if not given.is_covered or report.reason is not None:
        need(not report.accepted, "the graph is not matching covered")
        verdict(given, False, report.reason, report.witness)
        return
    fault = Stages(given, listed).fault()
    if fault is None:
        counts = len(listed.steps), listed.single, listed.double
        need(report.accepted, "the list is an ear decomposition, and it is refused")
        need((report.steps, report.single, report.double) == counts, "the count of the steps")
        return
    step, why, edge = fault
    need(not report.accepted, f"step {step} breaks rule {why}")
    shown = None if edge is None else given.graph.edges[edge]
    need((report.step, report.why, report.edge) == fault[:2] + (shown,), f"step {step}, rule {why}")
