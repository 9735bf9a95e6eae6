"""The parts of a page that go step by step: the ears, and the moves between two decompositions."""
from __future__ import annotations

from typing import Dict, FrozenSet, List, Sequence

from ..moves import Move, Switch
from . import style
from .comparisons import moving, node_at, shore_of, told, upper_path
from .ears import Panels
from .graph_scene import draw_graph
from .hypertext import SCALE, drawing, equation, joined, listed, runs, safe
from .needs import laid_out
from .nodes import Names, Node, leaf_marks, smaller
from .outlines import outline
from .plain import PlainGraph
from .scene import Scene
from .stages import Stage
from .style import Point

_WIDE = 460.0  # to which the picture of a step grows, twice at most: one of them is seen at a time


def ears_part(panels: Panels) -> str:
    """Returns the steps of an ear decomposition."""
    steps = []
    key = ", ".join(f"<b>{safe(a)}</b> {safe(b)}" for a, b in panels.key)
    box = panels.box
    scale = min(2 * SCALE, max(SCALE, _WIDE / max(1.0, box[2] - box[0])))
    for at, scene in enumerate(panels.scenes):
        scene.box = box
        names = panels.steps[at].told(panels.graph)
        ears = joined(
            [f'<span class="{c}">{safe(e)}</span>' for e, c in zip(names, ("first", "second"))]
        )
        kind = ("single", "double")[len(names) - 1]
        words = f"adds the {kind} ear {ears}" if at else f"with the edge {ears}"
        steps.append(_step(f"step {at}" if at else "start", words, drawing(scene, f"step {at}", scale=scale)))
    return _steps("step", steps) + (f'<p class="small">{key}</p>' if key else "")


def _step(head: str, words: str, body: str) -> str:
    caption = f"<figcaption><b>{head}</b> {words}</figcaption>"
    return f'<figure class="step" aria-label="{safe(head)}">{caption}{body}</figure>'


def _steps(name: str, steps: Sequence[str]) -> str:
    return f'<div class="steps" data-name="{name}">{"".join(steps)}</div>'


class MovesPart:
    """The moves one by one: for each the tree in outline, and the graph at the node that changes;
    without `graphs`, which need a layout, the trees alone."""

    def __init__(
        self,
        graph: PlainGraph,
        stages: Sequence[Stage],
        moves: Sequence[Move],
        names: Names,
        graphs: bool = True,
    ) -> None:
        self.graph, self.stages, self.moves, self.names = graph, stages, moves, names
        self.graphs = graphs
        self.known: Dict[FrozenSet[FrozenSet[int]], List[Point]] = {}

    def html(self, places: Sequence[Point]) -> str:
        """Returns the part; the places are those of the whole graph."""
        everything = frozenset(frozenset([v]) for v in range(self.graph.order))
        self.known[everything] = list(places)
        steps = [self._stage(at) for at in range(len(self.stages))]
        shores = dict.fromkeys(shore for stage in self.stages for shore in stage.tree.shores())
        order = self.graph.order
        sets = [equation(self.graph, smaller(shore, order, self.names)) for shore in shores]
        return _steps("move", steps) + listed(sets, "sets")

    def _stage(self, at: int) -> str:
        stage = self.stages[at]
        hot = moving(self.stages, self.moves, at)
        scene = outline(stage.tree, self.names, leaf_marks(len(stage.order), stage.order), hot)
        head = f"after move {at}" if at else "first tree"
        body = drawing(scene, head)
        if at + 1 == len(self.stages):
            done = len(self.moves) < len(self.stages)
            words = "this is the second decomposition" if done else "more moves follow"
        else:
            kind, what = told(self.moves[at], stage.tree, self.names)
            words = f'next, <span class="second">{runs(kind)}</span> {runs(what)}'
            if self.graphs:
                title = "the graph at this node, with the shores that change"
                body += drawing(self._change(at), title)
        return _step(head, words, f'<div class="move">{body}</div>')

    def _change(self, at: int) -> Scene:
        """The graph at the node of a move: the old shore blue, the new one rust; what a Switch
        exchanges is tinted."""
        move = self.moves[at]
        node = node_at(self.stages[at].tree, upper_path(move))
        after = node_at(self.stages[at + 1].tree, upper_path(move))
        panels, shores = laid_out("panels"), laid_out("shores")
        look = panels.node_look(node, panels.TreeStyle(self.graph, self.names))
        if isinstance(move, Switch):
            for k in self._exchanged(node, after):
                look.marks[k] = look.marks.get(k, style.PLAIN)._replace(fill=style.EXCHANGED)
        scene = Scene()
        places = laid_out("tree_places").follow_to(node, self.known)
        frame = draw_graph(scene, node.graph, places, look)
        both = [
            shores.Shore(node.inside(shore_of(it)), self.names[shore_of(it)], pen)
            for it, pen in ((node, shores.BLUE), (after, shores.RUST))
        ]
        shores.draw_shores(scene, frame, both)
        return scene

    @staticmethod
    def _exchanged(node: Node, after: Node) -> FrozenSet[int]:
        changed = shore_of(node) ^ shore_of(after)
        if 2 * len(changed) > node.whole.order:
            changed = frozenset(range(node.whole.order)) - changed
        return node.inside(changed)
