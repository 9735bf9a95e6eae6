"""`draw_cut`: a graph with one of its cuts, and next to it the two contractions."""
from __future__ import annotations

from typing import Any, FrozenSet, Iterable, List, Mapping, Optional

from ..graphs import Graph, GraphLike
from ..labels import Label
from .graph_scene import draw_graph
from .graphs import Positions, named, places_of
from .names import short_names
from .nodes import Set, barred, grown, names_of
from .panels import CAPTION, SQUARE, TreeStyle, node_look
from .picture import Picture, finished
from .plain import PlainGraph
from .scene import Run, Runs, Scene
from .shores import draw_cuts, set_names
from .tree_places import arrange

_GAP = 52.0


def draw_cut(
    graph: GraphLike,
    shore: Iterable[Label],
    others: Iterable[Iterable[Label]] = (),
    *,
    pos: Optional[Positions] = None,
    labels: Optional[Mapping[Any, object]] = None,
    title: str = "",
    ax: Optional[Any] = None,
) -> Picture:
    """Returns the picture of a cut: the graph with the cut of that shore, and its two contractions,
    contracted sets as squares. The cuts of other shores are drawn in the graph too, as lines if two
    of them cross.

    `pos`, `labels` and `ax` as for `draw`. Raises `ImportError` without NumPy and NetworkX, and
    `ValueError` for a shore that is empty or everything.
    """
    numbered = Graph(graph)
    plain = named(numbered, labels)
    shores = [frozenset(v - 1 for v in numbered.numbers(it)) for it in (shore, *others)]
    if not 0 < len(shores[0]) < plain.order:
        raise ValueError("the shore has no vertex, or all of them")
    tree = grown((shores[0], 0, 1), plain, [None, None])
    arrange(tree, places_of(numbered, plain, pos, shores))
    names = set_names(len(shores))
    shared = TreeStyle(plain, names_of(shores[:1], plain.order))
    shared.names.update({shores[0]: names[0], _rest(plain, shores[0]): barred(names[0])})
    whole = Scene()
    frame = draw_graph(whole, plain, tree.root.places, node_look(tree.root, shared), "g")
    draw_cuts(whole, frame, shores)
    scenes, captions = [whole], [_with(plain, names, shores)]
    for node, name, prefix in zip(tree.root.below, (barred(names[0]), names[0]), "km"):
        look = node_look(node, shared)
        look.marks = {v: SQUARE for v, block in enumerate(node.blocks) if len(block) > 1}
        scene = Scene()
        draw_graph(scene, node.graph, node.places, look, prefix)
        scenes.append(scene)
        captions.append([Run("G", italic=True), Run("/"), *name])
    scene = _row(scenes, captions)
    return finished(scene, title or "A cut and its two contractions", "", ax)


def _rest(plain: PlainGraph, shore: Set) -> FrozenSet[int]:
    return frozenset(range(plain.order)) - shore


def _with(plain: PlainGraph, names: List[Runs], shores: List[FrozenSet[int]]) -> Runs:
    """The name of the graph, and what its shores are."""
    short = short_names(plain.names)[0]
    words: Runs = [Run("G", italic=True), Run(", ")]
    for k, (name, shore) in enumerate(zip(names, shores)):
        listed = ", ".join(short[v] for v in sorted(shore))
        words += [*([Run(", ")] if k else []), *name, Run(f" = {{{listed}}}")]
    return words


def _row(scenes: List[Scene], captions: List[Runs]) -> Scene:
    """Scenes side by side, their middles on one line, with captions below."""
    scene, x = Scene(), 0.0
    high = max(it.high for it in scenes)
    for it, words in zip(scenes, captions):
        scene.put(it, x - it.box[0], high / 2 - (it.box[1] + it.box[3]) / 2)
        scene.text(x + it.wide / 2, high + 20, words, CAPTION)
        x += it.wide + _GAP
    return scene
