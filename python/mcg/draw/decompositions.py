"""`Decomposition.draw()`: the tree with its graphs, or for many leaves the map and the outline."""
from __future__ import annotations

from typing import Any, List, Mapping, Optional

from ..trees import Decomposition
from .dot import quoted
from .graphs import Positions, named, places_of
from .leaf_names import leaf_name
from .lists import add_names, add_sets
from .names import short_names
from .needs import laid_out
from .nodes import Names, Node, PlainTree, leaf_marks, names_of, smaller, smaller_sets, tree_of
from .outlines import outline
from .picture import Picture, finished
from .scene import Scene, plain_words

MOST_LEAVES = 6  # that are all drawn, if nothing else is asked for


def draw_decomposition(
    decomposition: Decomposition,
    *,
    pos: Optional[Positions] = None,
    graphs: Optional[bool] = None,
    labels: Optional[Mapping[Any, object]] = None,
    title: str = "",
    ax: Optional[Any] = None,
) -> Picture:
    """Returns the picture of a decomposition: the graph at each node of the tree with its shore
    dashed, contracted sets as squares, bricks in square and braces in round double frames.

    With more than six leaves it shows the graph with each vertex lettered by the leaf in which it
    stays single, and the tree in outline. `graphs=True` draws the graph at each node all the same,
    and `graphs=False` the outline alone, which needs no other package. `pos`, `labels` and `ax` as
    for `draw`. Raises `ImportError` without NumPy and NetworkX if graphs are drawn.
    """
    plain = named(decomposition.graph, labels)
    tree = tree_of(decomposition, plain)
    names = names_of(tree.shores(), plain.order)
    count = len(tree.leaves)
    words = title or f"A tight cut decomposition with {count} {'leaf' if count == 1 else 'leaves'}"
    if graphs is False:
        return finished(_bare(tree, names), words, "", ax)
    tree.root.places = places_of(decomposition.graph, plain, pos, tree.shores())
    if graphs is None and len(tree.leaves) > MOST_LEAVES:
        marks = leaf_marks(len(tree.leaves))
        return finished(laid_out("maps").overview(tree, names, marks), words, "", ax)
    laid_out("tree_places").arrange(tree)
    shared = laid_out("panels").TreeStyle(plain, names)
    scene: Scene = laid_out("tree_pictures").draw_tree(tree, shared).scene
    add_sets(scene, smaller_sets(tree.shores(), plain.order, names), shared.short)
    add_names(scene, shared.key)
    return finished(scene, words, "", ax)


def _bare(tree: PlainTree, names: Names) -> Scene:
    """The tree in outline, with the sets that its names stand for."""
    scene = outline(tree, names, leaf_marks(len(tree.leaves)), captions=True)
    short, key = short_names(tree.whole.names)
    add_sets(scene, smaller_sets(tree.shores(), tree.whole.order, names), short)
    add_names(scene, key)
    return scene


def decomposition_dot(decomposition: Decomposition) -> str:
    """Returns a decomposition for Graphviz's `dot`, without places; needs nothing. Each node of the
    tree is a cluster with its graph, contracted sets being boxes."""
    tree = tree_of(decomposition)
    names = names_of(tree.shores(), tree.whole.order)
    rows: List[str] = []
    for node in tree.root.walk():
        rows += _cluster(node, names)
    for node in tree.root.walk():
        for below in node.below:
            ends = f"{quoted(f'n{node.path}_0')} -- {quoted(f'n{below.path}_0')}"
            heads = f'ltail="cluster_{node.path}", lhead="cluster_{below.path}"'
            rows.append(f"  {ends} [{heads}, color=gray];")
    body = "".join(f"{row}\n" for row in rows)
    return f"graph {{\n  compound=true;\n  node [shape=circle];\n{body}}}\n"


def _cluster(node: Node, names: Names) -> List[str]:
    """The graph at a node as a cluster."""
    if node.shore is not None:
        named_set = smaller(node.shore, node.whole.order, names)
        members = ", ".join(node.whole.names[v] for v in sorted(named_set.vertices))
        bar = " complement" if any(run.over for run in named_set.name) else ""
        label = f"{plain_words(named_set.name)}{bar} = {{{members}}}"
    else:
        label = f"{node.kind or 'leaf'} {plain_words(leaf_name(node.graph))}"
    rows = [f'  subgraph "cluster_{node.path}" {{', f"    label={quoted(label)};"]
    for k, block in enumerate(node.blocks):
        text = ", ".join(node.whole.names[v] for v in sorted(block))
        look = f"label={quoted(text)}" + (", shape=box" if len(block) > 1 else "")
        rows.append(f"    {quoted(f'n{node.path}_{k}')} [{look}];")
    for a, b in node.graph.edges:
        rows.append(f"    {quoted(f'n{node.path}_{a}')} -- {quoted(f'n{node.path}_{b}')};")
    return [*rows, "  }"]
