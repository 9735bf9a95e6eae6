"""What a census has of a graph: a row of numbers and words, and the leaves."""
from __future__ import annotations

from typing import Dict, Iterator, List, NamedTuple, Optional, Sequence, Tuple

from . import graph6
from .errors import BadGraph, ProgramFailed
from .list_answers import Kind
from .lists import kinds, leaves
from .petersen import is_petersen

# The columns of `graphs` after `list` and `line`.
COLUMNS = (
    *("graph6", "vertices", "edges", "girth", "least_degree", "greatest_degree", "reason", "kind"),
    *("bricks", "braces", "petersen_bricks", "bicritical", "deficiency", "removable", "b_invariant"),
    "error",
)


class Row(NamedTuple):
    """A line of a list: its number, its values by the names of the columns, None where there is none,
    and the graph6 text and the kind of each leaf."""

    line: int
    values: Dict[str, object]
    leaves: List[Tuple[str, str]]


class _Graph(NamedTuple):
    """A graph of a list: the number of its line, its text, and its edges in the order of graph6."""

    line: int
    text: str
    order: int
    ends: List[Tuple[int, int]]


def rows_of(lines: Sequence[Tuple[int, bytes]], with_edges: bool, processes: int) -> Iterator[Row]:
    """Yields the rows of these lines, which have their numbers, in order; a bad line has a row too.

    `mcg6 kinds` and, for composite graphs, `mcg6 leaves` decide; a brick or a brace is its own leaf.
    With `with_edges`, `mcg6 kinds` is asked about each graph without each of its edges.
    """
    read = [_read(number, line) for number, line in lines]
    graphs = [it for it in read if isinstance(it, _Graph)]
    asked = kinds([it.text for it in graphs], None, processes) if graphs else ()
    found = {it.line: kind for kind, it in zip(asked, graphs)}
    composite = [it for it in graphs if found[it.line].kind == "composite"]
    parts: Dict[int, List[Tuple[str, str]]] = {it.line: [] for it in composite}
    told = leaves([it.text for it in composite], "first", None, processes) if composite else ()
    for leaf in told:
        parts[composite[leaf.index].line].append((leaf.graph6, leaf.kind))
    edges = _edge_numbers(graphs, found, processes) if with_edges else {}
    for it in read:
        if isinstance(it, Row):
            yield it
        else:
            kind = found[it.line]
            alone = [(it.text, kind.kind or "")] if kind.covered else []
            listed = parts.get(it.line, alone)
            yield Row(it.line, _values(it, kind, listed, edges.get(it.line)), listed)


def _read(number: int, line: bytes) -> _Graph | Row:
    """The graph of a line, or the row of a bad one."""
    try:
        order, ends = graph6.decode(line.decode("latin-1"))
    except BadGraph as fault:
        what = fault.words.split("not a graph in graph6: ")[-1]
        return bad_row(number, fault.kind, what)
    return _Graph(number, graph6.bare(line.decode("latin-1")), order, ends)


def bad_row(number: int, kind: Optional[int], what: str) -> Row:
    """Returns the row of a bad line: its error, and nothing else."""
    return Row(number, {**dict.fromkeys(COLUMNS), "error": f"kind {kind}: {what}"}, [])


def _values(
    it: _Graph, kind: Kind, listed: List[Tuple[str, str]], edges: Optional[Tuple[int, int]]
) -> Dict[str, object]:
    """The values of a graph by the names of the columns."""
    words = [word for _, word in listed]
    if kind.covered and (words.count("brick"), words.count("brace")) != (kind.bricks, kind.braces):
        raise ProgramFailed(f"mcg6 leaves and mcg6 kinds do not agree on {it.text}")
    degrees = [0] * it.order
    for pair in it.ends:
        for v in pair:
            degrees[v - 1] += 1
    petersen = sum(word == "brick" and text[0] == "I" and is_petersen(text) for text, word in listed)
    removable, invariant = edges or (None, None)
    return {
        "graph6": it.text,
        "vertices": it.order,
        "edges": len(it.ends),
        "girth": girth(it.order, it.ends),
        "least_degree": min(degrees, default=None),
        "greatest_degree": max(degrees, default=None),
        "reason": kind.reason,
        "kind": kind.kind,
        "bricks": kind.bricks,
        "braces": kind.braces,
        "petersen_bricks": petersen if kind.covered else None,
        "bicritical": None if kind.bicritical is None else int(kind.bicritical),
        "deficiency": kind.deficiency,
        "removable": removable,
        "b_invariant": invariant,
        "error": None,
    }


def girth(order: int, ends: Sequence[Tuple[int, int]]) -> Optional[int]:
    """Returns the length of a shortest cycle of a simple graph, None for a forest. The vertices count
    from 1. Takes a search from each vertex.

    >>> girth(4, [(1, 2), (2, 3), (3, 4), (1, 4)]), girth(3, [(1, 2), (2, 3)])
    (4, None)
    """
    near = [0] * (order + 1)
    for a, b in ends:
        near[a] |= 1 << b
        near[b] |= 1 << a
    best = 2 * order + 2
    for root in range(1, order + 1):
        seen = layer = 1 << root
        depth = 0
        while layer and 2 * depth + 1 < best:
            after, is_odd, is_even, left = 0, False, False, layer
            while left:
                least = left & -left
                left ^= least
                new = near[least.bit_length() - 1]
                is_odd |= bool(new & layer)
                new &= ~seen
                is_even |= bool(new & after)
                after |= new
            if is_odd or is_even:
                best = min(best, 2 * depth + (1 if is_odd else 2))
                break
            seen |= after
            layer, depth = after, depth + 1
    return best if best <= order else None


def _edge_numbers(
    graphs: Sequence[_Graph], found: Dict[int, Kind], processes: int
) -> Dict[int, Tuple[int, int]]:
    """For each graph that is matching covered, by its line, how many edges are removable, and how
    many b-invariant."""
    covered = [it for it in graphs if found[it.line].covered]
    counts = {it.line: [0, 0] for it in covered}
    owners = (it.line for it in covered for _ in it.ends)
    texts = (text for it in covered for text in _texts_without_an_edge(it))
    for kind, line in zip(kinds(texts, None, processes), owners):
        counts[line][0] += kind.covered
        counts[line][1] += kind.covered and kind.bricks == found[line].bricks
    return {line: (removable, invariant) for line, (removable, invariant) in counts.items()}


def _texts_without_an_edge(it: _Graph) -> Iterator[str]:
    """The graph6 texts of a graph without each of its edges: in each, one bit is cleared."""
    head = len(it.text) - (it.order * (it.order - 1) // 2 + 5) // 6
    for a, b in it.ends:
        place, bit = divmod((b - 1) * (b - 2) // 2 + a - 1, 6)
        at = head + place
        yield it.text[:at] + chr(ord(it.text[at]) - (32 >> bit)) + it.text[at + 1 :]
