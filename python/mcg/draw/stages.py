"""The trees between the moves of a comparison, by the rules of docs/FORMATS.md.

The report of `compare` says that each move can be made, so nothing is decided here; the tests
compare these trees with what `replay` makes.
"""
from __future__ import annotations

from typing import Callable, FrozenSet, List, NamedTuple, Tuple

from ..comparisons import Comparison
from ..graphs import Graph
from ..moves import Move, Rotate
from .nodes import PlainTree, Set, Shape, grown, shape_of
from .plain import PlainGraph

MOST_MOVES = 40  # that are drawn

# What a shore below a Switch becomes, and whether the children of its cut change places.
_Image = Callable[[Set], Tuple[Set, bool]]


class Stage(NamedTuple):
    """A tree between moves, and for each leaf the place of its partner in the first tree."""

    tree: PlainTree
    order: List[int]


def stages_of(comparison: Comparison, plain: PlainGraph) -> List[Stage]:
    """Returns the trees from the first to the second, after at most `MOST_MOVES` moves; the last
    has the partners of the report, those between what the moves have made of the leaves."""
    graph = comparison.first.graph
    kinds = [leaf.kind for leaf in comparison.first.leaves]
    shape = shape_of(comparison.first)
    found = [Stage(grown(shape, plain, kinds), _leaves(shape))]
    for move in comparison.moves[:MOST_MOVES]:
        shape = moved(shape, move, graph)
        found.append(Stage(grown(shape, plain, kinds), _leaves(shape)))
    if len(comparison.moves) <= MOST_MOVES:
        found[-1] = Stage(found[-1].tree, partners(comparison))
    return found


def partners(comparison: Comparison) -> List[int]:
    """Returns for each leaf of the second tree the place of its partner in the first."""
    found = [0] * len(comparison.pairs)
    for leaf, partner, _ in comparison.pairs:
        found[partner] = leaf
    return found


def _leaves(shape: Shape) -> List[int]:
    """The numbers of the leaves of a shape from left to right."""
    if isinstance(shape, int):
        return [shape]
    return _leaves(shape[1]) + _leaves(shape[2])


def moved(shape: Shape, move: Move, graph: Graph) -> Shape:
    """Returns what a move makes of a tree. Raises `ValueError` if it makes nothing."""
    if isinstance(move, Rotate):
        return _changed(shape, move.path[:-1], lambda it: _rotated(it, move.path[-1]))
    leaves, joins = (
        frozenset(v - 1 for v in graph.numbers(part)) for part in (move.leaves, move.joins)
    )
    everything = frozenset(range(graph.order))
    return _changed(shape, move.path, lambda it: _switched(it, leaves, joins, everything))


def _cut(shape: Shape) -> Tuple[Set, Shape, Shape]:
    if isinstance(shape, int):
        raise ValueError("a move leads to a leaf")
    return shape


def _changed(shape: Shape, path: str, change: Callable[[Shape], Shape]) -> Shape:
    """The tree with the part at the end of the path changed."""
    if not path:
        return change(shape)
    shore, kept, merged = _cut(shape)
    if path[0] == "k":
        return shore, _changed(kept, path[1:], change), merged
    return shore, kept, _changed(merged, path[1:], change)


def _rotated(shape: Shape, step: str) -> Shape:
    """The child of a cut brought above it."""
    upper, kept, merged = _cut(shape)
    lower, first, second = _cut(kept if step == "k" else merged)
    if step == "k":
        return lower, first, (upper, second, merged)
    if upper <= lower:
        return lower, (upper, kept, first), second
    if not upper & lower:
        return lower, first, (upper, kept, second)
    raise ValueError("the shores of a Rotate cross")


def _switched(shape: Shape, u: Set, v: Set, everything: FrozenSet[int]) -> Shape:
    """The cut with the part u of its shore and the part v of the other side exchanged."""
    x, kept, merged = _cut(shape)
    p, q = x - u, everything - x - v
    if max(everything) in v:
        above = _carried(merged, lambda s: ((s - x) | u if x <= s else s, False))
        return q | u, above, _carried(kept, lambda s: (s | q if u <= s else s, False))

    def outer(s: Set) -> Tuple[Set, bool]:
        return (s & q) | (u if x <= s else frozenset()) | (p | v if v <= s else frozenset()), False

    inner = _carried(kept, lambda s: ((x - s) | v, True) if u <= s else (s, False))
    return p | v, inner, _carried(merged, outer)


def _carried(shape: Shape, image: _Image) -> Shape:
    """The tree below a Switch."""
    if isinstance(shape, int):
        return shape
    shore, is_turned = image(shape[0])
    kept, merged = _carried(shape[1], image), _carried(shape[2], image)
    return (shore, merged, kept) if is_turned else (shore, kept, merged)
