"""Trees of cuts, and their text: tight cut decompositions in the caller's labels."""
from __future__ import annotations

from typing import TYPE_CHECKING, Any, Dict, FrozenSet, Iterator, List, Mapping, Optional, Sequence, Tuple, Union

from . import dicts, texts
from .errors import LIMIT, BadText
from .graphs import Graph, GraphLike
from .labels import VertexSet, brief, counted, shown
from .petersen import is_petersen
from .pictures import Drawable
from .sources import Edge
from .tree_nodes import Block, Cut, Leaf, Tree, sides

__all__ = ["Block", "Cut", "Decomposition", "Leaf", "Tree", "TreeLike", "as_tree", "node_place", "sides", "tree_text"]

if TYPE_CHECKING:
    from .draw import Picture

MOST_NODES = 127


class Decomposition(Drawable):
    """A tree of cuts of a graph with all its leaves.

    `Decomposition(G, tree)` computes the blocks and the edges of the leaves; it does not ask
    whether the tree is a tight cut decomposition, as `check` does. `graph` is the `Graph`, `tree`
    the tree, with a shore that does not hold the last vertex at each cut, and `leaves` the list
    of the leaves from left to right. Its length is the number of leaves, and iterating yields
    them. Two are equal if they have the same cuts in the same tree over equal graphs; which shore
    names a cut, the order of the vertices and the kinds of the leaves do not matter.

    >>> import mcg
    >>> edges = [("a", "b"), ("b", "c"), ("c", "d"), ("d", "e"), ("e", "f"), ("f", "a")]
    >>> tree = mcg.decompose(edges)
    >>> tree
    <Decomposition of 6 vertices: 0 bricks, 2 braces>
    >>> print(tree)
    <Decomposition of 6 vertices: 0 bricks, 2 braces>
    cut, shore {'b', 'c', 'd'}
      kept: brace on 4 blocks: 'b', 'c', 'd', {'a', 'e', 'f'}
      merged: brace on 4 blocks: 'a', {'b', 'c', 'd'}, 'e', 'f'
    >>> [leaf.kind for leaf in tree]
    ['brace', 'brace']
    >>> mcg.Decomposition.from_dict(tree.to_dict(), edges) == tree
    True
    """

    def __init__(self, graph: GraphLike, tree: Tree, kinds: Sequence[Optional[str]] = ()) -> None:
        self.graph = Graph(graph)
        self.leaves: List[Leaf] = []
        known = iter(kinds)
        blocks = [frozenset([k]) for k in range(1, self.graph.order + 1)]
        self.tree = self._filled(as_tree(tree), blocks, known)

    def _filled(self, tree: Tree, blocks: List[FrozenSet[int]], kinds: Iterator[Optional[str]]) -> Tree:
        """The tree with its leaves computed, where the graph's vertices are in these blocks."""
        if isinstance(tree, Leaf):
            self.leaves.append(self._leaf(next(kinds, tree.kind), blocks))
            return self.leaves[-1]
        shore, kept, merged = sides(self.graph, tree)
        outside = frozenset(range(1, self.graph.order + 1)) - shore
        inner = [it & shore for it in blocks if it & shore] + [outside]
        outer = [it - shore for it in blocks if it - shore] + [shore]
        below = [self._filled(kept, inner, kinds), self._filled(merged, outer, kinds)]
        return Cut(self.graph.labels(shore), *below)

    def _leaf(self, kind: Optional[str], blocks: List[FrozenSet[int]]) -> Leaf:
        graph = self.graph
        listed: List[Block] = [graph.labels(it) for it in sorted(blocks, key=lambda it: max(it, default=0))]
        place = {label: block for block in listed for label in block}
        number = {block: k for k, block in enumerate(listed)}
        edges: Dict[FrozenSet[Block], List[Edge]] = {}
        for edge in graph.edges:
            ends: List[Block] = [place[end] for end in edge[:2]]
            pair = VertexSet(sorted(ends, key=number.__getitem__))
            if len(pair) == 2:
                edges.setdefault(pair, []).append(edge)
        return Leaf(kind, list(listed), edges)

    @property
    def bricks(self) -> int:
        """The number of leaves that are bricks. Raises `ValueError` if the kinds are not known."""
        return len(self._of_kind("brick"))

    @property
    def braces(self) -> int:
        """The number of leaves that are braces. Raises `ValueError` if the kinds are not known."""
        return len(self._of_kind("brace"))

    @property
    def petersen_bricks(self) -> int:
        """p, the number of bricks whose simple graph is the Petersen graph. The package recognises
        it, as `is_petersen` does. Raises `ValueError` if the kinds are not known."""
        return sum(is_petersen(leaf.graph6()) for leaf in self._of_kind("brick"))

    @property
    def b_plus_p(self) -> int:
        """b + p, the numbers of bricks and of Petersen bricks added: the least number of double
        ears in an ear decomposition (Carvalho, Lucchesi and Murty, "Optimal ear decompositions of
        matching covered graphs and bases for the matching lattice", 2002). Raises `ValueError` if
        the kinds are not known."""
        return self.bricks + self.petersen_bricks

    @property
    def dimension(self) -> int:
        """m - n + 2 - b for a graph of n vertices and m edges with b bricks: the dimension of the
        linear space that the perfect matchings span (Edmonds, Lovász and Pulleyblank, "Brick
        decompositions and the matching rank of graphs", 1982). Raises `ValueError` if the kinds
        are not known."""
        return self.graph.size - self.graph.order + 2 - self.bricks

    def _of_kind(self, kind: str) -> List[Leaf]:
        if any(leaf.kind is None for leaf in self.leaves):
            raise ValueError("the kinds of these leaves are not known; check(G, tree) counts them")
        return [leaf for leaf in self.leaves if leaf.kind == kind]

    def block(self, leaf: int, name: int) -> Block:
        """Returns the block of a leaf whose highest-numbered vertex has this number."""
        named = (it for it in self.leaves[leaf].blocks if max(map(self.graph.number, it)) == name)
        return next(named)

    def draw(self, **options: Any) -> Picture:
        """Returns the picture of the tree: the graph at each node with its shore. The options are
        those of `mcg.draw.draw_decomposition`: `pos`, `graphs`, `labels`, `title`, `ax`."""
        from .draw.decompositions import draw_decomposition

        return draw_decomposition(self, **options)

    def to_dot(self) -> str:
        """Returns the tree for Graphviz's `dot`, a cluster with the graph at each node."""
        from .draw.decompositions import decomposition_dot

        return decomposition_dot(self)

    def to_text(self) -> str:
        """Returns the text in the derivation format. It has numbers and not labels."""
        return tree_text(self.graph, self.tree)

    @classmethod
    def from_text(cls, text: str, graph: GraphLike) -> Decomposition:
        """Returns the tree of a text in the derivation format, as `mcg decompose` writes it, in
        the labels of the graph; with the kinds of its leaves if they are in the comments. Raises
        `BadText` with the line and the kind."""
        numbered = Graph(graph)
        rows = (row.split() for row in text.splitlines())
        kinds = [words[3] for words in rows if words[:2] == ["c", "leaf"] and len(words) == 4]
        return cls(numbered, _read(text, numbered), kinds)

    def to_dict(self) -> Dict[str, Any]:
        """Returns the decomposition as a dict, by the rules of `mcg.dicts`: `tree` has for a cut
        its `shore`, `kept` and `merged`, and for a leaf the number of the `leaf`; `leaves` have
        `kind`, `blocks`, and `pairs` of blocks by their highest-numbered vertices, with the
        `edges` between them."""
        leaves = iter(range(1, len(self.leaves) + 1))
        made = {**dicts.head(self.graph), "tree": self._tree_dict(self.tree, leaves)}
        return {**made, "leaves": [self._leaf_dict(it) for it in self.leaves]}

    def _tree_dict(self, tree: Tree, leaves: Iterator[int]) -> Dict[str, Any]:
        if isinstance(tree, Leaf):
            return {"leaf": next(leaves)}
        below = {name: self._tree_dict(it, leaves) for name, it in (("kept", tree.kept), ("merged", tree.merged))}
        return {"shore": self.graph.numbers(tree.shore), **below}

    def _leaf_dict(self, leaf: Leaf) -> Dict[str, Any]:
        blocks = {block: self.graph.numbers(block) for block in leaf.blocks}
        pairs = [
            {"blocks": [blocks[it][-1] for it in pair], "edges": dicts.edge_numbers(self.graph, edges)}
            for pair, edges in leaf.edges.items()
        ]
        return {"kind": leaf.kind, "blocks": list(blocks.values()), "pairs": pairs}

    @classmethod
    def from_dict(cls, given: Dict[str, Any], graph: GraphLike) -> Decomposition:
        """Returns the decomposition of a dict that `to_dict` made, with the labels of the graph.
        Raises `BadText` for another dict, or a graph with other edges."""
        numbered = dicts.numbered(given, graph)
        with dicts.understood("tree"):
            tree = _tree_of(given["tree"], numbered)
            made = cls(numbered, tree, [leaf["kind"] for leaf in given["leaves"]])
        dicts.demand_same(made.to_dict(), given)
        return made

    def __len__(self) -> int:
        return len(self.leaves)

    def __iter__(self) -> Iterator[Leaf]:
        return iter(self.leaves)

    def __eq__(self, other: object) -> bool:
        if not isinstance(other, Decomposition):
            return NotImplemented
        return self.graph == other.graph and self._cuts(self.tree) == other._cuts(other.tree)

    def __hash__(self) -> int:
        return hash((self.graph, self._cuts(self.tree)))

    def _cuts(self, tree: Tree) -> Any:
        """What two trees share if they have the same cuts: both shores of each, with what is below."""
        if isinstance(tree, Leaf):
            return None
        other = frozenset(self.graph.vertices) - tree.shore
        return frozenset([(frozenset(tree.shore), self._cuts(tree.kept)), (other, self._cuts(tree.merged))])

    def __repr__(self) -> str:
        kinds = counted(len(self.leaves), "leaf", "leaves")
        if all(leaf.kind is not None for leaf in self.leaves):
            kinds = f"{counted(self.bricks, 'brick')}, {counted(self.braces, 'brace')}"
        return f"<Decomposition of {counted(self.graph.order, 'vertex', 'vertices')}: {kinds}>"

    def __str__(self) -> str:
        return "\n".join([repr(self), *_printed(self.tree, "", "")])


TreeLike = Union[Decomposition, Cut, Leaf]


def _tree_of(given: Mapping[str, Any], graph: Graph) -> Tree:
    """The tree of a dict, its leaves without blocks."""
    if "leaf" in given:
        return Leaf()
    kept, merged = (_tree_of(given[name], graph) for name in ("kept", "merged"))
    return Cut(graph.labels(given["shore"]), kept, merged)


def as_tree(tree: TreeLike) -> Tree:
    """Returns the tree of what was given as one. Raises `TypeError` for anything else."""
    if isinstance(tree, (str, bytes)):
        raise TypeError("a tree is a Decomposition, a Cut or a Leaf; Decomposition.from_text(text, graph) reads a text")
    top = tree.tree if isinstance(tree, Decomposition) else tree
    if not isinstance(top, (Cut, Leaf)):
        raise TypeError(f"a tree is a Decomposition, a Cut or a Leaf, and not {brief(shown(top))}")
    return top


def _printed(tree: Tree, indent: str, name: str) -> List[str]:
    """The lines of a tree, the sets by their labels and a block of one vertex by this vertex."""
    if isinstance(tree, Leaf):
        blocks = (shown(next(iter(it)) if len(it) == 1 else it) for it in tree.blocks)
        return [f"{indent}{name}{tree.kind or 'leaf'} on {counted(len(tree.blocks), 'block')}: {', '.join(blocks)}"]
    below = indent + "  " if name or indent else "  "
    head = f"{indent}{name}cut, shore {shown(tree.shore)}"
    return [head, *_printed(tree.kept, below, "kept: "), *_printed(tree.merged, below, "merged: ")]


def node_place(graph: Graph, tree: Tree, number: int) -> Tuple[str, Optional[Block]]:
    """Returns the path to the node with this number in preorder, from 1, and its shore, None for a
    leaf; of each cut the shore without the last vertex. Raises `ValueError` if there is none."""
    waiting: List[Tuple[str, Tree]] = [("", tree)]
    for _ in range(number - 1):
        path, node = waiting.pop() if waiting else ("", Leaf())
        if isinstance(node, Cut):
            _shore, kept, merged = sides(graph, node)
            waiting += [(path + "m", merged), (path + "k", kept)]
    if not waiting or number < 1:
        raise ValueError(f"the tree has no node {number}")
    path, node = waiting.pop()
    return path, graph.labels(sides(graph, node)[0]) if isinstance(node, Cut) else None


def tree_text(graph: Graph, tree: TreeLike) -> str:
    """Returns the text of a tree in the derivation format. Raises `BadText` for a tree that it does
    not take."""
    rows = [f"t mcg {graph.order}"]

    def write(node: Tree) -> None:
        if len(rows) > MOST_NODES:
            raise BadText(f"a tree has at most {MOST_NODES} nodes", kind=LIMIT)
        if isinstance(node, Leaf):
            rows.append("leaf")
            return
        if not isinstance(node, Cut):
            raise TypeError(f"a node of a tree is a Cut or a Leaf, and not {brief(shown(node))}")
        shore, kept, merged = sides(graph, node)
        if not shore:
            raise BadText("a cut has an empty shore on one side", kind=texts.WORD)
        rows.append(texts.spaced("cut", sorted(shore)))
        write(kept)
        write(merged)

    write(as_tree(tree))
    return "\n".join(rows) + "\n"


def _read(text: str, graph: Graph) -> Tree:
    """The tree of a text, its leaves without blocks."""
    reader = texts.Reader(text)
    line, (order,) = reader.header("t", "mcg", 1)
    if order != graph.order:
        raise reader.fault(line, texts.HEADER)
    tree = _read_node(reader, graph, 1)
    reader.end()
    return tree


def _read_node(reader: texts.Reader, graph: Graph, first: int) -> Tree:
    line, words = reader.take()
    if reader.at - first > MOST_NODES:
        raise reader.fault(line, LIMIT)
    if words == ["leaf"]:
        return Leaf()
    if words[0] != "cut" or len(words) == 1:
        raise reader.fault(line, texts.WORD)
    shore = reader.vertices(line, words[1:], graph.order)
    if graph.order in shore:
        raise reader.fault(line, texts.HAS_GREATEST)
    kept = _read_node(reader, graph, first)
    return Cut(graph.labels(shore), kept, _read_node(reader, graph, first))
