"""One node of a tree as a scene: the graph with its shore, or a leaf in its frame."""
from __future__ import annotations

from dataclasses import dataclass, field
from typing import Collection, List, Optional, Tuple

from . import style
from .graph_scene import Frame, Look, draw_graph
from .leaf_names import leaf_name
from .names import Key, short_names
from .nodes import Names, Node, Set
from .plain import PlainGraph
from .scene import Pen, Run, Scene
from .shores import BLUE, RUST, Shore, draw_shores

CAPTION = 10.5
SQUARE = style.Mark(style.SAND, style.INK, "square")  # a contracted set
_PAD, _HALF = 11.0, 34.0  # round the graph in a frame, and half of the least width of a frame


@dataclass
class TreeStyle:
    """What all panels of a tree share: sizes, short names of the vertices and their key, names of
    the shores, and the shores that are rust instead of blue."""

    whole: PlainGraph
    names: Names
    odd: Collection[Set] = ()
    short: List[str] = field(default_factory=list)
    key: Key = field(default_factory=list)
    radius: float = 8.0
    length: float = 50.0

    def __post_init__(self) -> None:
        sizes = style.sizes(min(self.whole.order, 20))
        self.radius, self.length = sizes.radius, sizes.length
        self.short, self.key = short_names(self.whole.names)


def node_look(node: Node, shared: TreeStyle) -> Look:
    """Returns the look of the graph at a node: contracted sets as squares with the names of their
    shores, the sides of a brace in ink and white."""
    look = Look(names="inside", widest=900.0, radius=shared.radius, length=shared.length)
    for k, block in enumerate(node.blocks):
        if len(block) > 1:
            look.marks[k] = SQUARE
            look.texts[k] = shared.names[block]
            look.titles[k] = "{" + ", ".join(node.whole.names[v] for v in sorted(block)) + "}"
        else:
            (vertex,) = block
            look.texts[k] = shared.short[vertex]
            if shared.short[vertex] != node.whole.names[vertex]:
                look.titles[k] = node.whole.names[vertex]
    if not node.below and node.kind != "brick":
        _mark_sides(node, look)
    return look


def _mark_sides(node: Node, look: Look) -> None:
    """Marks the two sides; the dark one has fewer squares, whose names are easier to read on
    sand."""
    side = node.graph.sides()
    if side is None:
        return
    squares = [sum(len(b) > 1 for b, k in zip(node.blocks, side) if k == each) for each in (0, 1)]
    dark = 0 if squares[0] <= squares[1] else 1
    for v, k in enumerate(side):
        if k == dark:
            shape = "square" if len(node.blocks[v]) > 1 else "disc"
            look.marks[v] = style.Mark(style.INK, style.PAPER, shape)


def panel(
    node: Node, shared: TreeStyle, tint: Optional[str] = None, letter: str = "", prefix: str = ""
) -> Tuple[Scene, Frame]:
    """Returns a node about (0, 0): the graph and its shore, or a leaf with its frame and caption."""
    body = Scene()
    frame = draw_graph(body, node.graph, node.places, node_look(node, shared), prefix)
    if node.shore is None:
        return _framed(node, body, tint, letter), frame
    pen = RUST if node.shore in shared.odd else BLUE
    shore = Shore(node.inside(node.shore), shared.names[node.shore], pen)
    draw_shores(body, frame, [shore])
    scene = Scene()
    x0, y0, x1, y1 = body.box
    scene.put(body, -(x0 + x1) / 2, -(y0 + y1) / 2)
    return scene, frame


def _framed(node: Node, body: Scene, tint: Optional[str], letter: str) -> Scene:
    """A leaf in its frame: square for a brick, round and double for a brace."""
    scene = Scene()
    x0, y0, x1, y1 = body.box
    wide, high = max((x1 - x0) / 2 + _PAD, _HALF), (y1 - y0) / 2 + _PAD
    if node.kind == "brace":
        ground = Pen(tint or style.PAPER, style.INK, style.FRAME)
        scene.rectangle(-wide, -high, wide, high, ground, radius=11.0)
        inner = Pen(None, style.INK, 0.6)
        scene.rectangle(-wide + 3, -high + 3, wide - 3, high - 3, inner, radius=8.5)
    else:
        fill = tint or (style.BRICK if node.kind == "brick" else style.PAPER)
        scene.rectangle(-wide, -high, wide, high, Pen(fill, style.INK, style.FRAME))
    scene.put(body, -(x0 + x1) / 2, -(y0 + y1) / 2)
    head = [Run(f"{letter}  ", bold=True)] if letter else []
    kind = [Run(f"{node.kind or 'leaf'} ")]
    scene.text(0.0, high + 12, head + kind + leaf_name(node.graph), CAPTION)
    return scene
