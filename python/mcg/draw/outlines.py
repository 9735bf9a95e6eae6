"""Trees without their graphs: a disc with the name of its shore for a cut, a square with its letter
for a leaf. This needs no other package."""
from __future__ import annotations

from itertools import zip_longest
from typing import Collection, Dict, List, Sequence, Tuple

from . import style
from .leaf_names import leaf_name
from .nodes import LeafMark, Names, Node, PlainTree, Set
from .scene import Pen, Run, Runs, Scene, plain_words
from .style import Point

_DOWN = 36.0
_LINE = Pen(stroke=style.QUIET, width=style.LINK)


def outline(
    tree: PlainTree,
    names: Names,
    marks: Sequence[LeafMark],
    hot: Collection[Set] = (),
    captions: bool = False,
    links: bool = False,
) -> Scene:
    """Returns a tree in outline; the cuts with hot shores are rust. `captions` has the names of the
    leaves below them, and `links` makes each node lead to #n and its path."""
    drawing = _Outline(names, marks, hot, captions, links)
    drawing.measure(tree.root)
    drawing.lay(tree.root, (0.0, 0.0))
    scene = Scene()
    scene.put(drawing.lines)
    scene.put(drawing.nodes)
    return scene


class _Outline:
    def __init__(
        self,
        names: Names,
        marks: Sequence[LeafMark],
        hot: Collection[Set],
        captions: bool,
        links: bool,
    ) -> None:
        self.names, self.marks, self.hot = names, marks, hot
        self.captions, self.links = captions, links
        self.step = 40.0 if captions else 30.0
        self.lines, self.nodes = Scene(), Scene()
        self.half: Dict[Node, float] = {}

    def measure(self, node: Node) -> List[Tuple[float, float]]:
        """Finds how far the nodes below a cut are from its middle, as near as the trees below them
        allow. Returns how far the tree reaches to both sides at each depth; the caption of a leaf
        takes the depth below it.

        Source: E. M. Reingold and J. S. Tilford, "Tidier drawings of trees", IEEE Transactions on
        Software Engineering 7 (1981).
        """
        if not node.below:
            return [(0.0, 0.0)] * (2 if self.captions else 1)
        kept, merged = map(self.measure, node.below)
        overlap = max(right - left for (_, right), (left, _) in zip(kept, merged))
        half = self.half[node] = (overlap + self.step) / 2
        rows = [(0.0, 0.0)]
        for one, other in zip_longest(kept, merged):
            ends = [x - half for x in one or ()] + [x + half for x in other or ()]
            rows.append((min(ends), max(ends)))
        return rows

    def lay(self, node: Node, place: Point) -> None:
        """Draws a node and what is below it."""
        x, y = place
        if node.below:
            self._cut(node, x, y)
        else:
            self._leaf(node, x, y)
        for side, below in zip((-1, 1), node.below):
            end = x + side * self.half[node], y + _DOWN
            self.lines.line(place, end, _LINE)
            self.lay(below, end)

    def _open(self, node: Node, title: str) -> None:
        if self.links:
            self.nodes.open("", title, href="#n" + node.path)

    def _close(self) -> None:
        if self.links:
            self.nodes.close()

    def _cut(self, node: Node, x: float, y: float) -> None:
        assert node.shore is not None
        name, is_hot = self.names[node.shore], node.shore in self.hot
        colour = style.RUST if is_hot else style.INK
        self._open(node, f"cut {plain_words(name)}")
        pen = Pen(style.PAPER, colour, 1.9 if is_hot else style.OUTLINE)
        self.nodes.shape("disc", (x, y), 11.5, pen)
        self.nodes.text(x, y, name, 10.5, fill=colour)
        self._close()

    def _leaf(self, node: Node, x: float, y: float) -> None:
        mark = self.marks[node.number]
        self._open(node, f"leaf {mark.letter}, a {node.kind or 'leaf'}")
        pen = Pen(mark.tint, style.INK, style.FRAME)
        is_brace = node.kind == "brace"
        self.nodes.rectangle(x - 10, y - 10, x + 10, y + 10, pen, radius=6.0 if is_brace else 0.0)
        if is_brace:
            inner = Pen(None, style.INK, 0.5)
            self.nodes.rectangle(x - 7.6, y - 7.6, x + 7.6, y + 7.6, inner, radius=4.2)
        self.nodes.text(x, y, [Run(mark.letter, bold=True)], 10.5 if len(mark.letter) == 1 else 8.5)
        if self.captions:
            name = short_caption(node)
            self.nodes.text(x, y + 19, name, 9.5)
        self._close()


def short_caption(node: Node) -> Runs:
    """Returns the name of a leaf, shortened, or just the number of its vertices."""
    name = leaf_name(node.graph)
    words = plain_words(name).replace("on ", "").replace("Petersen graph", "Petersen")
    return [Run(words.split()[0])] if len(words) > 8 else name
