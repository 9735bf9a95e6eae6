"""Trees of cuts as pictures need them: each node with its contraction, cuts and leaves numbered."""
from __future__ import annotations

import itertools
from functools import cached_property
from typing import (
    Dict,
    FrozenSet,
    Iterator,
    List,
    NamedTuple,
    Optional,
    Sequence,
    Tuple,
    Union,
)

from ..trees import Decomposition, Leaf, Tree, sides
from . import style
from .plain import PlainGraph
from .scene import Run, Runs
from .style import Point

Set = FrozenSet[int]
Names = Dict[Set, Runs]


class Node:
    """A node of a tree: `blocks`, sets of vertices from 0 by their greatest; `shore` and `below`,
    the nodes `kept` and `merged`, at a cut; `kind` at a leaf. `number` counts cuts and leaves each
    from 0 in preorder, `path` leads from the root.

    `places` are those of the blocks, once a layout has found them.
    """

    def __init__(self, whole: PlainGraph, blocks: Sequence[Set], above: Optional[Node]) -> None:
        self.whole, self.above = whole, above
        self.blocks = sorted(blocks, key=max)
        self.shore: Optional[Set] = None
        self.below: List[Node] = []
        self.kind: Optional[str] = None
        self.number = 0
        self.path = ""
        self.places: List[Point] = []

    @cached_property
    def graph(self) -> PlainGraph:
        """The contraction at the blocks."""
        return self.whole.contracted(self.blocks)

    def walk(self) -> Iterator[Node]:
        """Returns this node and all below it, in preorder."""
        yield self
        for node in self.below:
            yield from node.walk()

    def inside(self, shore: Set) -> FrozenSet[int]:
        """Returns the numbers of the blocks in a set of vertices."""
        return frozenset(k for k, block in enumerate(self.blocks) if block <= shore)

    def inner_shores(self) -> List[FrozenSet[int]]:
        """Returns the shores of the cuts at and below this node, as sets of its blocks."""
        found = [self.inside(node.shore) for node in self.walk() if node.shore]
        return [it for it in found if 1 < len(it) < len(self.blocks) - 1]


class PlainTree(NamedTuple):
    """A tree: its root, its cuts and its leaves, both in preorder."""

    root: Node
    cuts: List[Node]
    leaves: List[Node]

    @property
    def whole(self) -> PlainGraph:
        """The graph that is decomposed."""
        return self.root.whole

    def shores(self) -> List[Set]:
        """Returns the shores of the cuts, in preorder."""
        return [node.shore for node in self.cuts if node.shore]


# A tree without its graphs: the number of a leaf, or a shore with the trees `kept` and `merged`.
Shape = Union[int, Tuple[Set, "Shape", "Shape"]]


def shape_of(decomposition: Decomposition) -> Shape:
    """Returns the shape of a decomposition, its leaves numbered from 0 in preorder."""
    numbers = itertools.count()

    def shape(tree: Tree) -> Shape:
        if isinstance(tree, Leaf):
            return next(numbers)
        shore, kept, merged = sides(decomposition.graph, tree)
        first = shape(kept)
        return frozenset(v - 1 for v in shore), first, shape(merged)

    return shape(decomposition.tree)


def grown(shape: Shape, whole: PlainGraph, kinds: Sequence[Optional[str]]) -> PlainTree:
    """Returns the tree of a shape; `kinds` has the kind of each leaf by its number in the shape."""
    cuts: List[Node] = []
    leaves: List[Node] = []
    everything = frozenset(range(whole.order))

    def make(part: Shape, blocks: List[Set], above: Optional[Node], path: str) -> Node:
        node = Node(whole, blocks, above)
        node.path = path
        if isinstance(part, int):
            node.kind, node.number = kinds[part], len(leaves)
            leaves.append(node)
            return node
        node.number = len(cuts)
        cuts.append(node)
        shore, kept, merged = part
        node.shore = shore
        inner = [block for block in blocks if block <= shore] + [everything - shore]
        outer = [block for block in blocks if not block <= shore] + [shore]
        node.below = [make(kept, inner, node, path + "k"), make(merged, outer, node, path + "m")]
        return node

    root = make(shape, [frozenset([v]) for v in range(whole.order)], None, "")
    return PlainTree(root, cuts, leaves)


def tree_of(decomposition: Decomposition, whole: Optional[PlainGraph] = None) -> PlainTree:
    """Returns the tree of a decomposition, with the names of its graph or other ones."""
    kinds = [leaf.kind for leaf in decomposition.leaves]
    return grown(shape_of(decomposition), whole or PlainGraph.of(decomposition.graph), kinds)


def cut_name(k: int, total: int) -> Runs:
    """Returns the name of the k-th cut, from 0: X, or X with a number where there are several."""
    name = [Run("X", italic=True)]
    return name + [Run(str(k + 1), sub=True)] if total > 1 else name


def barred(runs: Runs) -> Runs:
    """Returns the name of the complement of a set: the bar is put on, or taken off."""
    return [run._replace(over=not run.over) if run.italic else run for run in runs]


def names_of(shores: Sequence[Set], order: int) -> Names:
    """Returns a name for each shore, numbered as they come, and with a bar for its complement."""
    listed = list(dict.fromkeys(shores))
    everything = frozenset(range(order))
    found: Names = {}
    for k, shore in enumerate(listed):
        found.setdefault(shore, cut_name(k, len(listed)))
    for shore in listed:
        found.setdefault(everything - shore, barred(found[shore]))
    return found


class NamedSet(NamedTuple):
    """A set of vertices and its name."""

    name: Runs
    vertices: Set


def smaller(shore: Set, order: int, names: Names) -> NamedSet:
    """Returns a shore or, if that has fewer vertices, its complement, with its name."""
    if 2 * len(shore) <= order:
        return NamedSet(names[shore], shore)
    rest = frozenset(range(order)) - shore
    return NamedSet(names[rest], rest)


def smaller_sets(shores: Sequence[Set], order: int, names: Names) -> List[NamedSet]:
    """Returns for each shore the smaller of its two sides, with its name."""
    return [smaller(shore, order, names) for shore in dict.fromkeys(shores)]


class LeafMark(NamedTuple):
    """The letter and the tint of a leaf."""

    letter: str
    tint: str


def leaf_marks(count: int, order: Optional[Sequence[int]] = None) -> List[LeafMark]:
    """Returns the letters and tints of some leaves; `order` says which letter each has."""
    listed = range(count) if order is None else order
    return [LeafMark(style.letter(k), style.tint(k)) for k in listed]
