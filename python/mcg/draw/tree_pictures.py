"""The tree of a decomposition as a picture: the graph at each node, children below their parent."""
from __future__ import annotations

from typing import Dict, List, NamedTuple, Sequence, Tuple

from . import style
from .graph_scene import Frame
from .nodes import LeafMark, Names, Node, PlainTree
from .panels import TreeStyle, panel
from .scene import Pen, Run, Scene

_GAP, _DOWN = 26.0, 46.0  # between panels side by side, and between levels
_LINK = Pen(stroke=style.QUIET, width=style.LINK)


class DrawnTree(NamedTuple):
    """A tree as a scene, where its root is, and the frame of the graph at each node."""

    scene: Scene
    root: Tuple[float, float]
    frames: Dict[Node, Frame]


class _Spot:
    """A node with its panel and how far its subtree reaches to both sides on each level."""

    def __init__(self, node: Node, scenes: Dict[Node, Scene]) -> None:
        self.node, self.scene = node, scenes[node]
        self.below = [_Spot(it, scenes) for it in node.below]
        left, _, right, _ = self.scene.box
        self.levels = [(left, right)]
        self.shifts: List[float] = []
        if self.below:
            self._put(*self.below)

    def _put(self, one: _Spot, other: _Spot) -> None:
        """Puts two children as near as the panels on each level allow."""
        apart = max(a[1] - b[0] for a, b in zip(one.levels, other.levels)) + _GAP
        self.shifts = [-apart / 2, apart / 2]
        for k in range(max(len(one.levels), len(other.levels))):
            ends = [
                (x + it.levels[k][0], x + it.levels[k][1])
                for x, it in zip(self.shifts, self.below)
                if k < len(it.levels)
            ]
            self.levels.append((min(a for a, _ in ends), max(b for _, b in ends)))

    def heights(self, depth: int, found: List[Tuple[float, float]]) -> None:
        """How far the panels on each level reach up and down from their middles."""
        _, top, _, bottom = self.scene.box
        if depth == len(found):
            found.append((top, bottom))
        found[depth] = (min(found[depth][0], top), max(found[depth][1], bottom))
        for it in self.below:
            it.heights(depth + 1, found)


def draw_tree(
    tree: PlainTree, shared: TreeStyle, marks: Sequence[LeafMark] = (), prefix: str = ""
) -> DrawnTree:
    """Returns the tree, its places being found; leaves with marks have letters and tints."""
    scenes: Dict[Node, Scene] = {}
    frames: Dict[Node, Frame] = {}
    for node in tree.root.walk():
        mark = marks[node.number] if marks and not node.below else None
        letter, tint = (mark.letter, mark.tint) if mark else ("", None)
        key = f"{prefix}n{node.path}_"
        scenes[node], frames[node] = panel(node, shared, tint, letter, key)
    root = _Spot(tree.root, scenes)
    heights: List[Tuple[float, float]] = []
    root.heights(0, heights)
    middles, y = [], 0.0
    for top, bottom in heights:
        y -= top
        middles.append(y)
        y += bottom + _DOWN
    scene = Scene()
    _lay(scene, root, 0.0, 0, middles, shared.names)
    return DrawnTree(scene, (0.0, middles[0]), frames)


def _lay(
    scene: Scene, spot: _Spot, x: float, depth: int, middles: List[float], names: Names
) -> None:
    """A panel at its place, and what is below it with the links to it."""
    for it, dx, side in zip(spot.below, spot.shifts, (-1, 1)):
        # the link leaves near the middle of the parent and ends upright above the child
        a = (x + 0.16 * dx, middles[depth] + spot.scene.box[3] + 6)
        b = (x + dx, middles[depth + 1] + it.scene.box[1] - 6)
        bend = (b[1] - a[1]) * 0.55
        scene.path([("M", *a), ("C", a[0], a[1] + bend, b[0], b[1] - bend, *b)], _LINK)
        words = link_words(it.node, names)
        anchor = "end" if side < 0 else "start"
        scene.text(b[0] + side * 5, b[1] - 9, words, 11, anchor=anchor, fill=style.QUIET)
        _lay(scene, it, x + dx, depth + 1, middles, names)
    scene.open("node")
    scene.put(spot.scene, x, middles[depth])
    scene.close()


def link_words(node: Node, names: Names) -> List[Run]:
    """Returns what is contracted on the way to a node: G/X, below the first level /X alone."""
    above = node.above
    assert above is not None and above.shore is not None
    everything = frozenset(range(node.whole.order))
    gone = everything - above.shore if node is above.below[0] else above.shore
    head = [Run("G", italic=True)] if above.above is None else []
    return [*head, Run("/"), *names[gone]]
