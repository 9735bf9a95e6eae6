"""Checks reports on trees of cuts against the definitions: `decompose` and `check`."""
from __future__ import annotations

from typing import Dict, FrozenSet, Iterator, List, NamedTuple, Optional, Tuple

from ..decompositions import Refusal, TreeCheck
from ..graphs import GraphLike
from ..trees import Decomposition, Leaf, Tree, TreeLike, sides
from .candidates import first_candidate
from .orders import Chosen, demand_order
from .places import Place
from .structure import Given, Wrong, need, verdict

# A tree by sets of vertices: None for a leaf, and else the shore and the two trees below it.
Node = Optional[Tuple[int, "Node", "Node"]]


class Fault(NamedTuple):
    """The first node of a tree that breaks a rule, why, and where it is."""

    node: int
    why: int
    place: Place
    shore: int


def node_of(given: Given, tree: TreeLike) -> Node:
    """Returns a tree by sets of vertices, with shores that do not hold the last vertex."""
    top: Tree = tree.tree if isinstance(tree, Decomposition) else tree
    if isinstance(top, Leaf):
        return None
    shore, kept, merged = sides(given.graph, top)
    bits = sum(1 << v - 1 for v in shore)
    return bits, node_of(given, kept), node_of(given, merged)


class Trees:
    """Decides whether trees are tight cut decompositions of a graph; what was decided of a
    contraction is remembered."""

    def __init__(self, given: Given) -> None:
        self.given = given
        self._cuts: Dict[Tuple[Tuple[int, ...], int], Optional[int]] = {}
        self._kinds: Dict[Tuple[int, ...], Optional[str]] = {}
        self._places: Dict[Tuple[int, ...], Place] = {}

    def _known(self, place: Place) -> Place:
        return self._places.setdefault(place.blocks, place)

    def kind(self, place: Place) -> Optional[str]:
        """Returns whether a contraction is a brick or a brace, and None if it is neither."""
        if place.blocks not in self._kinds:
            simple = place.simple
            found = "brick" if simple.is_brick() else "brace" if simple.is_brace() else None
            self._kinds[place.blocks] = found
        return self._kinds[place.blocks]

    def cut_fault(self, place: Place, shore: int) -> Optional[int]:
        """Returns why a shore is refused at a contraction, by number, and None if it is not."""
        key = place.blocks, shore
        if key not in self._cuts:
            self._cuts[key] = self._decided(place, shore)
        return self._cuts[key]

    def _decided(self, place: Place, shore: int) -> Optional[int]:
        inside = place.inside(shore)
        if inside is None:
            return 1
        count = bin(inside).count("1")
        if count % 2 == 0:
            return 2
        if count < 3 or len(place.blocks) - count < 3:
            return 3
        return None if place.simple.is_tight(inside) else 4

    def leaves(self, node: Node) -> Iterator[Place]:
        """Yields the contractions at the leaves of a tree that has no fault."""
        yield from self._leaves(self.given.root, node)

    def _leaves(self, place: Place, node: Node) -> Iterator[Place]:
        place = self._known(place)
        if node is None:
            yield place
            return
        shore, kept, merged = node
        yield from self._leaves(place.kept(shore), kept)
        yield from self._leaves(place.merged(shore), merged)

    def cuts(self, node: Node) -> Iterator[Tuple[Place, int]]:
        """Yields the contraction and the shore of each cut of a tree that has no fault, in preorder."""
        yield from self._cuts_below(self.given.root, node)

    def _cuts_below(self, place: Place, node: Node) -> Iterator[Tuple[Place, int]]:
        place = self._known(place)
        if node is not None:
            shore, kept, merged = node
            yield place, shore
            yield from self._cuts_below(place.kept(shore), kept)
            yield from self._cuts_below(place.merged(shore), merged)

    def fault(self, node: Node) -> Optional[Fault]:
        """Returns the first node in preorder that breaks a rule."""
        return self._fault(self.given.root, node, iter(range(1, 1 << 30)))

    def _fault(self, place: Place, node: Node, numbers: Iterator[int]) -> Optional[Fault]:
        place, number = self._known(place), next(numbers)
        if node is None:
            return None if self.kind(place) else Fault(number, 5, place, 0)
        shore, kept, merged = node
        why = self.cut_fault(place, shore)
        if why:
            return Fault(number, why, place, shore)
        found = self._fault(place.kept(shore), kept, numbers)
        return found or self._fault(place.merged(shore), merged, numbers)

    def demand_refusal(self, node: Node, refusal: Refusal) -> None:
        """Checks a refusal of a tree. Raises `Wrong`."""
        fault = self.fault(node)
        if fault is None:
            raise Wrong("the tree is a decomposition, and it is refused")
        need((refusal.node, refusal.why) == fault[:2], f"it is node {fault.node} by reason {fault.why}")
        if fault.why == 4:
            self._demand_matching(fault, refusal)
        elif fault.why == 5:
            due = first_candidate(fault.place, self.edges(fault.place))
            need(self.given.bits(refusal.cut or ()) == due, "the cut of a leaf is not that of candidate 0")
        if refusal.path is not None:
            place = path_of(node, fault.node), None if fault.why == 5 else self.given.labels(fault.shore)
            need((refusal.path, refusal.shore) == place, "the place of the node")
        has_shown = refusal.matching is not None, refusal.cut is not None
        need(has_shown == (fault.why == 4, fault.why == 5), "what shows a refusal")

    def edges(self, place: Place) -> List[Tuple[int, int]]:
        """Returns the edges of a contraction in the order of the format: those of the graph at the
        root, and below it those of the simple graph."""
        if place.blocks == self.given.root.blocks:
            return [(min(it), max(it)) for it in place.pairs]
        return [(a, b) for a, row in enumerate(place.simple.rows) for b in row if a < b]

    def _demand_matching(self, fault: Fault, refusal: Refusal) -> None:
        """The edges are a perfect matching of the contraction with two edges or more in the cut."""
        place, graph = fault.place, self.given.graph
        numbers = [graph.edge_number(edge) - 1 for edge in refusal.matching or ()]
        need(numbers == sorted(numbers), "the edges of the matching in increasing order")
        ends = [[place.where[v] for v in place.pairs[k]] for k in numbers]
        need(sorted(sum(ends, [])) == list(range(len(place.blocks))), "a perfect matching")
        inside = place.inside(fault.shore) or 0
        need(sum((inside >> a ^ inside >> b) & 1 for a, b in ends) >= 2, "two edges in the cut")


def path_of(node: Node, number: int) -> str:
    """Returns the path to the node with this number in preorder, from 1."""
    waiting: List[Tuple[str, Node]] = [("", node)]
    for _ in range(number - 1):
        path, at = waiting.pop()
        if at is not None:
            _shore, kept, merged = at
            waiting += [(path + "m", merged), (path + "k", kept)]
    return waiting.pop()[0]


def demand_derivation(trees: Trees, node: Node) -> None:
    """Checks that a tree is a tight cut decomposition. Raises `Wrong`."""
    fault = trees.fault(node)
    if fault:
        raise Wrong(f"node {fault.node} breaks rule {fault.why}")


def decompose(graph: GraphLike, decomposition: Decomposition, order: Optional[Chosen] = None) -> None:
    """Checks that a decomposition is a tight cut decomposition of a matching covered graph, with
    the right leaves. Raises `Wrong`.

    With `order`, what `mcg.decompose` was given as its order, it must also be the decomposition
    that this order gives. Without it any tight cut decomposition passes, `replay` makes others too.

    >>> import mcg
    >>> decompose("C~", mcg.decompose("C~"))
    >>> decompose("E~rG", mcg.decompose("E~rG", "last"), "last")
    """
    trees, node = decomposed(graph, decomposition)
    if order is not None:
        demand_order(trees, node, order)


def decomposed(graph: GraphLike, decomposition: Decomposition) -> Tuple[Trees, Node]:
    """Checks a decomposition, whatever its order of choice, and returns its tree. Raises `Wrong`."""
    given = Given(graph)
    need(given.is_covered, "the graph is not matching covered")
    trees, node = Trees(given), node_of(given, decomposition)
    demand_derivation(trees, node)
    places = list(trees.leaves(node))
    need(len(places) == len(decomposition.leaves), "the number of leaves")
    for number, (place, leaf) in enumerate(zip(places, decomposition.leaves), 1):
        need(leaf.kind == trees.kind(place), f"the kind of leaf {number}")
        _leaf(given, place, leaf, number)
    return trees, node


def _leaf(given: Given, place: Place, leaf: Leaf, number: int) -> None:
    """The blocks of a leaf and the edges between them."""
    blocks = [given.labels(it) for it in place.blocks]
    need(leaf.blocks == blocks, f"the blocks of leaf {number}")
    edges: Dict[FrozenSet[FrozenSet[object]], List[Tuple[object, ...]]] = {}
    for edge, (a, b) in zip(given.graph.edges, given.pairs):
        pair = frozenset(blocks[place.where[v]] for v in (a, b))
        if len(pair) == 2:
            edges.setdefault(pair, []).append(edge)
    need(leaf.edges == edges, f"the edges of leaf {number}")


def check(graph: GraphLike, tree: TreeLike, report: TreeCheck) -> None:
    """Checks what `check` reports of a tree. Raises `Wrong`.

    >>> import mcg
    >>> check("C~", mcg.Leaf(), mcg.check("C~", mcg.Leaf()))
    """
    given = Given(graph)
    if not given.is_covered or report.reason is not None:
        need(not report.accepted, "the graph is not matching covered")
        verdict(given, False, report.reason, report.witness)
        return
    trees, node = Trees(given), node_of(given, tree)
    if report.refusal is not None:
        need(not report.accepted, "accepted and refused")
        trees.demand_refusal(node, report.refusal)
        return
    need(report.accepted, "neither accepted nor refused")
    demand_derivation(trees, node)
    kinds = [trees.kind(place) for place in trees.leaves(node)]
    counts = len(kinds), kinds.count("brick"), kinds.count("brace")
    need((report.leaves, report.bricks, report.braces) == counts, "the count of the leaves")
