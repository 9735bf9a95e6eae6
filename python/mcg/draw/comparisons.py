"""`Comparison.draw()`: two trees, matched leaves alike, and all moves from one to the other."""
from __future__ import annotations

from typing import Any, Dict, List, Mapping, Optional, Sequence, Tuple

from ..comparisons import Comparison
from ..moves import Move, Rotate, Switch
from . import style
from .decompositions import MOST_LEAVES
from .dot import quoted
from .graphs import Positions, named, places_of
from .lists import add_names, add_sets
from .names import short_names
from .needs import laid_out
from .nodes import (
    NamedSet,
    Names,
    Node,
    PlainTree,
    Set,
    leaf_marks,
    names_of,
    smaller_sets,
    tree_of,
)
from .outlines import outline
from .picture import Picture, finished
from .plain import name_of
from .scene import Pen, Run, Runs, Scene, plain_words, words_width
from .stages import Stage, partners, stages_of
from .style import Point

_ARROW = Pen(stroke=style.RUST, width=1.6)
_BETWEEN = 64.0  # the two trees
_WIDEST = 760.0  # of a row of the strip


def node_at(tree: PlainTree, path: str) -> Node:
    """Returns the node at the end of a path of letters k and m."""
    node = tree.root
    for step in path:
        node = node.below["km".index(step)]
    return node


def upper_path(move: Move) -> str:
    """Returns the path to the node that a move changes."""
    return move.path[:-1] if isinstance(move, Rotate) else move.path


def shore_of(node: Node) -> Set:
    """Returns the shore of a cut."""
    assert node.shore is not None
    return node.shore


def told(move: Move, before: PlainTree, names: Names) -> Tuple[Runs, Runs]:
    """Returns a move in words: what it is, and what it does."""
    if isinstance(move, Switch):
        words = f": {_listed(before, move.leaves)} leaves, {_listed(before, move.joins)} joins"
        return [Run("Switch", bold=True)], [
            *names[shore_of(node_at(before, move.path))],
            Run(words),
        ]
    upper, lower = node_at(before, upper_path(move)), node_at(before, move.path)
    words_of = [*names[shore_of(lower)], Run(" goes above "), *names[shore_of(upper)]]
    return [Run("Rotate", bold=True)], words_of


def _listed(tree: PlainTree, labels: Any) -> str:
    return ", ".join(sorted(map(name_of, labels), key=lambda it: (len(it), it)))


def moving(stages: Sequence[Stage], moves: Sequence[Move], at: int) -> List[Set]:
    """Returns the shores that change at a stage: those that the next move changes and those that
    the last one has changed."""
    found = []
    if at < len(moves) and at + 1 < len(stages):
        found.append(shore_of(node_at(stages[at].tree, moves[at].path)))
    if at:
        found.append(shore_of(node_at(stages[at].tree, upper_path(moves[at - 1]))))
    return found


def strip(
    stages: Sequence[Stage], moves: Sequence[Move], names: Names, widest: float = _WIDEST
) -> Scene:
    """Returns all trees in outline from left to right, with an arrow and its words for each move; a
    row that would be wider than `widest` goes on in the next one."""
    scene, x, y, deep = Scene(), 0.0, 0.0, 0.0
    for at, stage in enumerate(stages):
        hot = moving(stages, moves, at)
        it = outline(stage.tree, names, leaf_marks(len(stage.order), stage.order), hot)
        deep = max(deep, it.box[3])
        scene.open("state", at=at)
        scene.put(it, x - it.box[0], y)
        scene.close()
        x += it.wide
        if at + 1 < len(stages):
            head, words = told(moves[at], stage.tree, names)
            wide = max(words_width(words, 10) + 16, 90.0)
            if x + wide + 30 + it.wide > widest:
                x, y, deep = 0.0, y + deep + 40, 0.0
            arrow(scene, (x + 8, y + 18), (x + 8 + wide, y + 18))
            scene.text(x + 8 + wide / 2, y + 8, head, 10.5, fill=style.RUST)
            scene.text(x + 8 + wide / 2, y + 31, words, 10)
            x += wide + 16
    if len(moves) >= len(stages):
        scene.text(x + 14, y + 18, f".. {len(moves) + 1 - len(stages)} more", 10, anchor="start")
    return scene


def arrow(scene: Scene, a: Point, b: Point) -> None:
    """Adds an arrow that leads to the right."""
    scene.line(a, (b[0] - 6, b[1]), _ARROW)
    head = [b, (b[0] - 9, b[1] - 3.6), (b[0] - 9, b[1] + 3.6)]
    scene.polygon(head, Pen(style.RUST, None, 0))


def draw_comparison(
    comparison: Comparison,
    *,
    pos: Optional[Positions] = None,
    graphs: Optional[bool] = None,
    labels: Optional[Mapping[Any, object]] = None,
    title: str = "",
    ax: Optional[Any] = None,
) -> Picture:
    """Returns the picture of a comparison: both trees, a leaf and its partner with the same letter,
    tint and drawing; below them all trees between in outline, and an arrow for each move (at most
    40). Shores of one tree alone are rust, those of both are blue.

    With more than six leaves it shows for each tree the graph with each vertex lettered by its leaf,
    and the tree in outline. `graphs=True` draws the graph at each node all the same, and
    `graphs=False` the outlines alone, which need no other package. `pos`, `labels` and `ax` as for
    `draw`. Raises `ImportError` without NumPy and NetworkX if graphs are drawn.
    """
    graph = comparison.first.graph
    plain = named(graph, labels)
    stages = stages_of(comparison, plain)
    first, second = stages[0].tree, tree_of(comparison.second, plain)
    _share_kinds(comparison, first, second)
    order = partners(comparison)
    listed = [shore for tree in (first, second) for shore in tree.shores()]
    listed += [shore for stage in stages for shore in stage.tree.shores()]
    names = names_of(listed, plain.order)
    if graphs is False:
        scene = both_outlines(first, second, order, names)
    else:
        places = places_of(graph, plain, pos, first.shores() + second.shores())
        if graphs or len(order) <= MOST_LEAVES:
            scene = both_trees(comparison, first, second, order, names, places)
        else:
            scene = both_maps(first, second, order, names, places)
    if comparison.moves:
        low, wide = scene.box[3] + 16, scene.wide
        row = strip(stages, comparison.moves, names, max(wide, _WIDEST))
        scene.line((scene.box[0], low), (scene.box[2], low), Pen(stroke=style.RULE, width=0.6))
        middle = scene.box[0] + (wide - row.wide) / 2
        scene.put(row, middle - row.box[0], low + 26 - row.box[1])
    count = len(comparison.moves)
    words = title or f"Two decompositions and {count} move{'' if count == 1 else 's'}"
    return finished(scene, words, "", ax)


def both_trees(
    comparison: Comparison,
    first: PlainTree,
    second: PlainTree,
    order: Sequence[int],
    names: Names,
    places: List[Point],
) -> Scene:
    """Returns the two trees side by side, with the sets that their names stand for."""
    pictures: Any = laid_out("tree_pictures")
    laid_out("tree_places").arrange(first, places)
    _share_places(comparison, first, second)
    laid_out("tree_places").arrange(second, places)
    odd = set(first.shores()) ^ set(second.shores())
    shared = laid_out("panels").TreeStyle(first.whole, names, odd)
    one = pictures.draw_tree(first, shared, leaf_marks(len(first.leaves)), "a")
    other = pictures.draw_tree(second, shared, leaf_marks(len(order), order), "b")
    scene = Scene()
    top = max(it.root[1] - it.scene.box[1] for it in (one, other))
    x = 0.0
    for it in (one, other):
        scene.put(it.scene, x - it.scene.box[0], top - it.root[1])
        x += it.scene.wide + _BETWEEN
    add_sets(scene, _sets_of(first, second, names), shared.short)
    add_names(scene, shared.key)
    return scene


def both_maps(
    first: PlainTree, second: PlainTree, order: Sequence[int], names: Names, places: List[Point]
) -> Scene:
    """Returns two trees with many leaves side by side: the graph lettered by the leaves of each, and
    the tree in outline."""
    first.root.places = second.root.places = places
    odd = set(first.shores()) ^ set(second.shores())
    marks = leaf_marks(len(order)), leaf_marks(len(order), order)
    overview = laid_out("maps").overview
    return _beside(*(overview(tree, names, it, odd) for tree, it in zip((first, second), marks)))


def both_outlines(
    first: PlainTree, second: PlainTree, order: Sequence[int], names: Names
) -> Scene:
    """Returns two trees in outline side by side, with the sets that their names stand for."""
    odd = set(first.shores()) ^ set(second.shores())
    marks = leaf_marks(len(order)), leaf_marks(len(order), order)
    trees = zip((first, second), marks)
    scene = _beside(*(outline(tree, names, it, odd, captions=True) for tree, it in trees))
    short, key = short_names(first.whole.names)
    add_sets(scene, _sets_of(first, second, names), short)
    add_names(scene, key)
    return scene


def _beside(one: Scene, other: Scene) -> Scene:
    """Two scenes side by side, as high as each other."""
    scene = Scene()
    scene.put(one, -one.box[0], -one.box[1])
    scene.put(other, one.wide + _BETWEEN - other.box[0], -other.box[1])
    return scene


def _sets_of(first: PlainTree, second: PlainTree, names: Names) -> List[NamedSet]:
    """The shores of two trees, by the numbers in their names."""
    shores = sorted(set(first.shores() + second.shores()), key=lambda s: _number(names[s]))
    return smaller_sets(shores, first.whole.order, names)


def _number(name: Runs) -> int:
    return int(name[1].text) if len(name) > 1 else 0


def _share_kinds(comparison: Comparison, first: PlainTree, second: PlainTree) -> None:
    """Gives a leaf whose kind is not known that of its partner: isomorphic graphs are alike."""
    for leaf, partner, _ in comparison.pairs:
        one, other = first.leaves[leaf], second.leaves[partner]
        one.kind, other.kind = one.kind or other.kind, other.kind or one.kind


def _share_places(comparison: Comparison, first: PlainTree, second: PlainTree) -> None:
    """Gives each leaf of the second tree the places of its partner, block by block."""
    graph = comparison.first.graph
    for leaf, partner, image in comparison.pairs:
        images: Dict[Set, Set] = {
            frozenset(v - 1 for v in graph.numbers(b)): frozenset(v - 1 for v in graph.numbers(a))
            for a, b in image.items()
        }
        one, other = first.leaves[leaf], second.leaves[partner]
        place = dict(zip(one.blocks, one.places))
        other.places = [place[images[block]] for block in other.blocks]


def comparison_dot(comparison: Comparison) -> str:
    """Returns both trees in outline for Graphviz's `dot`, without places; needs nothing. Partners
    are joined by dashed lines."""
    trees = [tree_of(it) for it in (comparison.first, comparison.second)]
    names = names_of(trees[0].shores() + trees[1].shores(), trees[0].whole.order)
    rows = []
    for side, tree in zip("ab", trees):
        for node in tree.root.walk():
            label = plain_words(names[node.shore]) if node.shore else node.kind or "leaf"
            look = ", shape=box" if node.shore is None else ""
            rows.append(f"  {quoted(side + node.path)} [label={quoted(label)}{look}];")
            rows += [
                f"  {quoted(side + node.path)} -- {quoted(side + it.path)};" for it in node.below
            ]
    for leaf, partner, _ in comparison.pairs:
        ends = (f"a{trees[0].leaves[leaf].path}", f"b{trees[1].leaves[partner].path}")
        rows.append(f"  {quoted(ends[0])} -- {quoted(ends[1])} [style=dashed, constraint=false];")
    body = "".join(f"{row}\n" for row in rows)
    return f"graph {{\n{body}}}\n"
