"""Checks comparisons and moves against the definitions: `compare` and `replay`."""
from __future__ import annotations

from typing import Callable, Dict, Sequence, Tuple

from ..comparisons import Comparison
from ..graphs import GraphLike
from ..moves import Move, Rotate
from ..replays import Replay
from ..trees import TreeLike
from .places import Place
from .structure import Given, Wrong, need, verdict
from .trees import Node, Trees, demand_derivation, node_of

# What a shore below a Switch becomes, and whether the children of its cut change places.
Image = Callable[[int], Tuple[int, bool]]


def moved(given: Given, node: Node, move: Move) -> Node:
    """Returns what a move makes of a tree, by docs/FORMATS.md; None if it has no result."""
    if isinstance(move, Rotate):
        if not move.path:
            return None
        last = move.path[-1]
        return _changed(node, move.path[:-1], lambda it: _rotated(it, last))
    parts = given.bits(move.leaves), given.bits(move.joins)
    return _changed(node, move.path, lambda it: _switched(given, it, *parts))


def _changed(node: Node, path: str, change: Callable[[Node], Node]) -> Node:
    """The tree with the node at the end of the path changed."""
    if not path:
        return change(node)
    if node is None:
        return None
    shore, kept, merged = node
    if path[0] == "k":
        below = _changed(kept, path[1:], change)
        return below and (shore, below, merged)
    below = _changed(merged, path[1:], change)
    return below and (shore, kept, below)


def _rotated(node: Node, step: str) -> Node:
    """The child of a cut brought above it."""
    if node is None:
        return None
    upper, kept, merged = node
    child = kept if step == "k" else merged
    if child is None:
        return None
    lower, first, second = child
    if step == "k":
        return lower, first, (upper, second, merged)
    if upper & lower == upper:
        return lower, (upper, kept, first), second
    if upper & lower == 0:
        return lower, first, (upper, kept, second)
    return None


def _switched(given: Given, node: Node, u: int, v: int) -> Node:
    """The cut with the part u of its shore and the part v of the other side exchanged."""
    if node is None:
        return None
    x, kept, merged = node
    other = given.whole & ~x
    is_proper = u and v and u & x == u and v & other == v and u != x and v != other
    if not is_proper:
        return None
    p, q = x & ~u, other & ~v
    if v >> given.graph.order - 1:
        new_kept = _carried(merged, lambda s: (s & ~x | u if s & x == x else s, False))
        return q | u, new_kept, _carried(kept, lambda s: (s | q if s & u == u else s, False))

    def outer(s: int) -> Tuple[int, bool]:
        return s & q | (u if s & x == x else 0) | (p | v if s & v == v else 0), False

    new_kept = _carried(kept, lambda s: (x & ~s | v, True) if s & u == u else (s, False))
    return p | v, new_kept, _carried(merged, outer)


def _carried(node: Node, image: Image) -> Node:
    """The tree below a Switch."""
    if node is None:
        return None
    shore, is_turned = image(node[0])
    kept, merged = _carried(node[1], image), _carried(node[2], image)
    return (shore, merged, kept) if is_turned else (shore, kept, merged)


def compare(graph: GraphLike, report: Comparison) -> None:
    """Checks a comparison: both trees are tight cut decompositions, each pair of leaves has a
    bijection that preserves adjacency both ways, and the moves turn the first tree into the
    second, with a decomposition after each of them. Raises `Wrong`.

    >>> import mcg
    >>> tree = mcg.decompose("E~rG")
    >>> compare("E~rG", mcg.compare("E~rG", tree, tree))
    """
    given = Given(graph)
    need(given.is_covered, "the graph is not matching covered")
    trees = Trees(given)
    first, second = (node_of(given, it) for it in (report.first, report.second))
    demand_derivation(trees, first)
    demand_derivation(trees, second)
    places = [list(trees.leaves(it)) for it in (first, second)]
    need([pair[0] for pair in report.pairs] == list(range(len(places[0]))), "the leaves of the first")
    partners = sorted(pair[1] for pair in report.pairs)
    need(partners == list(range(len(places[1]))), "the leaves of the second")
    for leaf, partner, images in report.pairs:
        found = {given.bits(a): given.bits(b) for a, b in images.items()}
        _leaf_map(places[0][leaf], places[1][partner], found, leaf + 1)
    cuts = len(places[0]) - 1
    need(len(report.moves) <= 5 * cuts**2, f"more than {5 * cuts**2} moves for {cuts} cuts")
    node = first
    for number, move in enumerate(report.moves, 1):
        node = moved(given, node, move)
        need(node is not None and trees.fault(node) is None, f"move {number} makes no decomposition")
    need(node == second, "the moves do not lead to the second tree")


def _leaf_map(first: Place, second: Place, images: Dict[int, int], number: int) -> None:
    """A bijection of the blocks of two leaves that preserves adjacency both ways."""
    what = f"the map of leaf {number}"
    need(sorted(images) == list(first.blocks), what)
    need(sorted(images.values()) == list(second.blocks), what)
    place = {block: k for k, block in enumerate(second.blocks)}
    image = [place[images[block]] for block in first.blocks]
    for a, near in enumerate(first.simple.rows):
        need({image[b] for b in near} == set(second.simple.rows[image[a]]), what)


def replay(graph: GraphLike, tree: TreeLike, moves: Sequence[Move], report: Replay) -> None:
    """Checks what `replay` reports: the tree that the moves make, or the first that fails. Raises
    `Wrong`.

    >>> import mcg
    >>> tree = mcg.decompose("E~rG")
    >>> replay("E~rG", tree, [], mcg.replay("E~rG", tree, []))
    """
    given = Given(graph)
    if not given.is_covered or report.reason is not None:
        need(report.result is None, "the graph is not matching covered")
        verdict(given, False, report.reason, report.witness)
        return
    trees, node = Trees(given), node_of(given, tree)
    if report.move == 0:
        _refused(trees, node, report)
        return
    demand_derivation(trees, node)
    for number, move in enumerate(moves, 1):
        after = moved(given, node, move)
        if after is None or trees.fault(after):
            need((report.result, report.move) == (None, number), f"move {number} fails")
            need((report.refusal is None) == (after is None), f"how move {number} fails")
            if after is not None:
                _refused(trees, after, report)
            return
        node = after
    if report.result is None:
        raise Wrong("all moves can be made")
    need(node_of(given, report.result) == node, "the tree that the moves make")


def _refused(trees: Trees, node: Node, report: Replay) -> None:
    if report.refusal is None:
        raise Wrong("a refusal is expected")
    trees.demand_refusal(node, report.refusal)
