"""The map of a tree with many leaves: the graph lettered by its leaves, and the tree in outline."""
from __future__ import annotations

from typing import Collection, Sequence

from . import style
from .graph_scene import Look, draw_graph
from .nodes import LeafMark, Names, PlainTree, Set
from .outlines import outline
from .scene import Scene
from .shores import BLUE, RUST, Shore, draw_shores


def lettered(
    tree: PlainTree, names: Names, marks: Sequence[LeafMark], odd: Collection[Set] = ()
) -> Scene:
    """Returns the graph, each vertex with the letter and the tint of its leaf: every vertex stays
    single in exactly one. The first shore is dashed, blue, or rust if it is one of the odd ones."""
    graph = tree.whole
    look = Look(names="inside", widest=620.0)
    for node in tree.leaves:
        mark = marks[node.number]
        for block in node.blocks:
            if len(block) == 1:
                (v,) = block
                look.marks[v] = style.Mark(mark.tint)
                look.texts[v] = mark.letter
                look.titles[v] = graph.names[v]
    scene = Scene()
    frame = draw_graph(scene, graph, tree.root.places, look)
    shore = tree.root.shore
    if shore:
        pen = RUST if shore in odd else BLUE
        draw_shores(scene, frame, [Shore(shore, names[shore], pen)])
    return scene


def overview(
    tree: PlainTree, names: Names, marks: Sequence[LeafMark], odd: Collection[Set] = ()
) -> Scene:
    """Returns a tree with many leaves: the lettered graph, and the outline below it. The odd shores
    are rust."""
    graph = lettered(tree, names, marks, odd)
    line = outline(tree, names, marks, odd, captions=True)
    scene = Scene()
    wide = max(graph.wide, line.wide)
    scene.put(graph, (wide - graph.wide) / 2 - graph.box[0], -graph.box[1])
    scene.put(line, (wide - line.wide) / 2 - line.box[0], graph.high + 40 - line.box[1])
    return scene
