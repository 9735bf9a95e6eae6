"""The nodes of trees of cuts: leaves, and cuts with a tree on each side."""
from __future__ import annotations

from dataclasses import dataclass, field
from typing import Any, Dict, FrozenSet, List, Optional, Tuple, Union

from .graph6 import encode
from .graphs import Graph, new_networkx
from .labels import Label, brief, counted, shown
from .sage_graphs import sage_graph
from .sources import Edge, edge_key

Block = FrozenSet[Label]


@dataclass(frozen=True, eq=False, repr=False)
class Leaf:
    """A leaf of a tree: a graph whose vertices are blocks, sets of vertices of the given graph.

    `kind` is `"brick"` or `"brace"`, or None if no program was asked. `blocks` are its vertices,
    in the order of their highest-numbered members. `edges` has, for each set of two adjacent
    blocks, the edges of the given graph between them. A leaf made without arguments stands for
    one whose blocks are not computed yet, as in a tree for `check`. Two leaves are equal if their
    kinds, blocks and edges are, in any order.

    >>> import mcg
    >>> mcg.decompose([("u", "a"), ("a", "b"), ("b", "v"), ("v", "u")]).leaves
    [<brace on 4 blocks, 4 pairs, 4 edges>]
    """

    kind: Optional[str] = None
    blocks: List[Block] = field(default_factory=list)
    edges: Dict[FrozenSet[Block], List[Edge]] = field(default_factory=dict)

    @property
    def size(self) -> int:
        """The number of edges of the given graph between different blocks."""
        return sum(map(len, self.edges.values()))

    def _parts(self) -> Tuple[Any, ...]:
        """What two leaves share if they are equal."""
        edges = frozenset(
            (pair, frozenset(map(edge_key, listed))) for pair, listed in self.edges.items()
        )
        return self.kind, frozenset(self.blocks), edges

    def __eq__(self, other: object) -> bool:
        if not isinstance(other, Leaf):
            return NotImplemented
        return self._parts() == other._parts()

    def __hash__(self) -> int:
        return hash(self._parts())

    def __repr__(self) -> str:
        if not self.blocks:
            return "Leaf()" if self.kind is None else f"Leaf({self.kind!r})"
        sizes = (
            counted(len(self.blocks), "block"),
            counted(len(self.edges), "pair"),
            counted(self.size, "edge"),
        )
        return "<{} on {}, {}, {}>".format(self.kind or "leaf", *sizes)

    def graph(self, multigraph: bool = False) -> Any:
        """Returns the leaf as a `networkx.Graph` on its blocks, each edge with the attribute
        `edges`, the edges of the given graph that it stands for; or as a `networkx.MultiGraph`
        in which each of those is an edge, and its own key. Needs NetworkX."""
        made = new_networkx(multigraph)
        made.add_nodes_from(self.blocks)
        for pair, edges in self.edges.items():
            if multigraph:
                for edge in edges:
                    # (`add_edges_from` can take an edge of two-item labels for attributes)
                    made.add_edge(*pair, key=edge)
            else:
                made.add_edge(*pair, edges=edges)
        return made

    def to_sage(self, multigraph: bool = False) -> Any:
        """Returns the leaf as a graph of Sage on its blocks, each edge with the edges of the given
        graph that it stands for as its label, a tuple; or as one with multiple edges, in which
        each of those is an edge, and its own label. Needs Sage."""
        pairs = [(tuple(pair), edges) for pair, edges in self.edges.items()]
        if multigraph:
            return sage_graph(
                self.blocks, [(a, b, it) for (a, b), edges in pairs for it in edges], True
            )
        return sage_graph(self.blocks, [(a, b, tuple(edges)) for (a, b), edges in pairs], False)

    def graph6(self) -> str:
        """Returns the graph6 text of the leaf as a simple graph, its vertices in the order of
        `blocks`."""
        place = {block: k for k, block in enumerate(self.blocks, 1)}
        pairs = (sorted(place[block] for block in pair) for pair in self.edges)
        return encode(len(self.blocks), ((a, b) for a, b in pairs))


@dataclass(frozen=True, repr=False)
class Cut:
    """A node of a tree: the cut with this shore, a set of vertices of the given graph.

    In the tree `kept` everything outside the shore is one block, and in `merged` the shore is.

    >>> Cut(frozenset({"a", "b", "c"}), Leaf(), Leaf())
    <cut with the shore {'a', 'b', 'c'} above 2 leaves>
    """

    shore: FrozenSet[Label]
    kept: Tree
    merged: Tree

    def __repr__(self) -> str:
        return f"<cut with the shore {brief(shown(self.shore))} above {counted(leaf_count(self), 'leaf', 'leaves')}>"


Tree = Union[Cut, Leaf]


def leaf_count(tree: Tree) -> int:
    """Returns the number of leaves of a tree."""
    return 1 if isinstance(tree, Leaf) else leaf_count(tree.kept) + leaf_count(tree.merged)


def sides(graph: Graph, cut: Cut) -> Tuple[FrozenSet[int], Tree, Tree]:
    """Returns the shore of a cut that does not hold the last vertex, by number, and the trees
    `kept` and `merged` that belong to it. Raises `BadText` for a label that is not a vertex."""
    shore = frozenset(graph.numbers(cut.shore))
    if graph.order not in shore:
        return shore, cut.kept, cut.merged
    return frozenset(range(1, graph.order)) - shore, cut.merged, cut.kept
