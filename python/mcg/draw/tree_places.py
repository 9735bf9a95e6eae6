"""Places for the graph at each node of a tree: a child keeps those of its parent."""
from __future__ import annotations

import math
from typing import Dict, FrozenSet, List, Optional, Sequence, Tuple

import numpy as np

from .layout import place
from .layout.arrays import Array, as_points, centred
from .layout.measures import crossings, resolution, scaled, strangers
from .layout.relaxing import relax
from .layout.symmetry import automorphisms
from .nodes import Node, PlainTree, Set
from .style import Point

_SMALL = 6  # a graph of at most so many blocks gets a drawing of its own
_LARGE = 24  # a node of more blocks always keeps the places of its parent
_CROWDED = 0.3  # the room below which it gets one, too


def arrange(tree: PlainTree, places: Optional[Sequence[Point]] = None) -> None:
    """Finds the places of all nodes: those of the root are given or found, the others are near what
    they come from."""
    for node in tree.root.walk():
        if node.places:
            continue
        if node.above is None:
            found = (
                np.array(places) if places is not None else place(node.graph, node.inner_shores())
            )
        else:
            found = _followed(node, node.above)
        node.places = as_points(found)


def follow_to(node: Node, known: Dict[FrozenSet[Set], List[Point]]) -> List[Point]:
    """Returns the places of a node, found down from the root without what is beside the way;
    `known` has those that were found before, by their blocks."""
    blocks = frozenset(node.blocks)
    if blocks not in known:
        assert node.above is not None
        node.above.places = follow_to(node.above, known)
        found = as_points(_followed(node, node.above))
        known[blocks] = found
    return known[blocks]


def _target(node: Node, above: Node) -> Array:
    """Where the blocks are in the parent's picture; a new one is amid what it holds."""
    before = dict(zip(above.blocks, above.places))
    found = []
    for block in node.blocks:
        if block in before:
            found.append(before[block])
        else:
            parts = [at for other, at in before.items() if other <= block]
            found.append(
                (sum(x for x, _ in parts) / len(parts), sum(y for _, y in parts) / len(parts))
            )
    return np.array(found)


def _followed(node: Node, above: Node) -> Array:
    """Places near those of the parent: what was kept stays, the new square comes where the other
    side was, and all is relaxed. A leaf, and a node that would be crowded or crossed more than need
    be, gets a drawing of its own, turned so that its vertices come near to where they were."""
    target = _target(node, above)
    if not node.below or len(node.blocks) <= _SMALL:
        return _own(node, target)
    q = _best_square(node, above, target)
    is_large = len(node.blocks) > _LARGE
    if q is None:
        if not is_large:
            return _own(node, target)
        q = target
    pairs, many = node.graph.pairs, node.graph.parallel()
    slack = np.array([1.0 + 0.9 * (len(many[pair]) - 1) for pair in pairs])
    q = relax(q, pairs, 16 if is_large else 100, slack=slack)
    if not is_large and (resolution(q, pairs) < _CROWDED or strangers(q, node.inner_shores())):
        return _own(node, target)
    far = float(np.ptp(np.array(above.places), axis=0).max())
    return centred(q * min(1.0, far / float(np.ptp(q, axis=0).max())))


def _best_square(node: Node, above: Node, target: Array) -> Optional[Array]:
    """The places with the new square where it makes the fewest crossings; None if there are more
    than in the parent's picture."""
    pairs, known = node.graph.pairs, set(above.blocks)
    new = next(k for k, block in enumerate(node.blocks) if block not in known)
    gone = [at for block, at in zip(above.blocks, above.places) if block <= node.blocks[new]]
    options: List[Tuple[int, int, Array]] = []
    for at in [tuple(target[new]), *gone]:
        q = target.copy()
        q[new] = at
        options.append((crossings(q, pairs), len(options), q))
    least, _, best = min(options, key=lambda it: it[:2])
    if least == 0:
        return best
    most = crossings(np.array(above.places), above.graph.pairs)
    return best if least <= most else None


def _own(node: Node, target: Array) -> Array:
    p = scaled(place(node.graph, node.inner_shores()), node.graph.pairs)
    return _turned(p, node, target)


def _turned(p: Array, node: Node, target: Array) -> Array:
    """The drawing with its vertices exchanged by a symmetry of the graph and turned by quarters, as
    near the target as can be; sets of parallel edges want long edges."""
    graph = node.graph
    images = [list(range(graph.order))]
    if graph.order <= 40:
        images += automorphisms(graph, budget=8000, most=120)
    many = [(a, b, len(edges) - 1) for (a, b), edges in graph.parallel().items() if len(edges) > 1]
    t, q = _unit(target), _unit(p)
    wide, high = float(np.ptp(p[:, 0])), float(np.ptp(p[:, 1]))
    best = (math.inf, p)
    for image in images:
        for quarter, (c, s) in enumerate(((1, 0), (0, 1), (-1, 0), (0, -1))):
            if quarter % 2 and abs(wide - high) > 0.1 * wide:
                continue
            for flip in (1, -1):
                turn = np.array([[c, s], [-s, c]]) * np.array([flip, 1])
                r = q[image] @ turn
                rank = float(((r - t) ** 2).sum()) + 0.001 * (quarter + (flip < 0))
                rank += sum(1.5 * k / max(math.dist(r[a], r[b]), 0.1) for a, b, k in many)
                if rank < best[0] - 1e-9:
                    best = rank, p[image] @ turn
    return centred(best[1])


def _unit(p: Array) -> Array:
    """A drawing about its mean, of mean square 1."""
    q = p - p.mean(0)
    found: Array = q / max(math.sqrt(float((q**2).sum(1).mean())), 1e-9)
    return found
