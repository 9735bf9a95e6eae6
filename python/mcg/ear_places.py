"""Where the error of a step of ears shows: at which of its ears, and at which edge.

The report has the step and the reason; the place is found from the list of ears alone, for the
words of a refusal. No matching is made.
"""
from __future__ import annotations

from typing import TYPE_CHECKING, List, Optional, Set, Tuple

from .graphs import Graph

if TYPE_CHECKING:
    from .ear_lists import Ear, Ears

# The ear, 1 or 2, or None if the step has one; and the number of the edge, or None.
Place = Tuple[Optional[int], Optional[int]]


def fault_place(graph: Graph, listed: Ears, number: int, why: int) -> Place:
    """Returns the place of the error in the step with this number, which is refused for the reason
    `why`; (None, None) if no ear by itself is at fault. Raises `ValueError` if there is no such
    step. Takes time in the number of edges."""
    if not 0 <= number <= len(listed.steps):
        raise ValueError(f"there is no step {number}")
    edges = {graph.edge_number(listed.start)}
    for step in listed.steps[: max(0, number - 1)]:
        edges |= {graph.edge_number(edge) for ear in step for edge in ear.edges}
    met = {v for k in edges for v in graph.ends[k - 1]}
    if not number or why > 5:
        return None, None
    step = listed.steps[number - 1]
    inner: Set[int] = set()
    for place, ear in enumerate(step, 1):
        found = _fault(graph, ear, met, inner, edges)
        if found and found[0] == why:
            return (place if len(step) == 2 else None), found[1]
        if found:
            break
        walk, _astray = _walk(graph, ear)
        inner = set(walk[1:-1])
        edges = edges | {graph.edge_number(edge) for edge in ear.edges}
    return None, None


def _walk(graph: Graph, ear: Ear) -> Tuple[List[int], Optional[int]]:
    """The vertices that an ear passes, and the first edge at which it is no path."""
    walk = [graph.number(ear.vertex)]
    for k, edge in enumerate(ear.edges, 1):
        number = graph.edge_number(edge)
        ends = graph.ends[number - 1]
        if walk[-1] not in ends:
            return walk, number
        reached = ends[1] if ends[0] == walk[-1] else ends[0]
        if reached in walk[1:] or (reached == walk[0] and k < len(ear.edges)):
            return walk, number
        walk.append(reached)
    return walk, None


def _fault(
    graph: Graph, ear: Ear, met: Set[int], inner: Set[int], edges: Set[int]
) -> Optional[Tuple[int, Optional[int]]]:
    """The first of the reasons 1 to 5 that applies to an ear, and the edge at which it shows, given
    the vertices before the step, the inner ones of its first ear, and the edges of both."""
    walk, astray = _walk(graph, ear)
    if astray is not None:
        return 1, astray
    numbers = [graph.edge_number(edge) for edge in ear.edges]
    if len(numbers) % 2 == 0:
        return 2, None
    if walk[0] == walk[-1] or not {walk[0], walk[-1]} <= met:
        return 3, numbers[-1] if walk[0] in met else numbers[0]
    entering = [k for k, v in zip(numbers, walk[1:-1]) if v in met | inner]
    if entering:
        return 4, entering[0]
    used = [k for k in numbers if k in edges]
    return (5, used[0]) if used else None
