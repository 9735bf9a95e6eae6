"""Comparisons of decompositions: `compare` and `script`."""
from __future__ import annotations

import re
from dataclasses import dataclass
from typing import TYPE_CHECKING, Any, Dict, Iterator, List, Mapping, Tuple

from . import dicts, report_texts
from .analysis import demand_covered
from .decompositions import refusal
from .errors import NotADerivation
from .graphs import Graph, GraphLike
from .labels import counted, shown
from .moves import Moves
from .pictures import Drawable
from .programs import reported, run, understood
from .tree_nodes import leaf_count
from .trees import Block, Decomposition, TreeLike, as_tree, tree_text

if TYPE_CHECKING:
    from .draw import Picture

Pairing = Tuple[int, int, Dict[Block, Block]]


@dataclass(frozen=True, repr=False)
class Comparison(Drawable):
    """How the leaves of two decompositions of one graph correspond.

    `pairs` has for each leaf of the first its place, the place of its partner in the second, both
    from 0 in `Decomposition.leaves`, and a bijection of their blocks: two blocks are adjacent if
    and only if their images are. `moves` turn the first decomposition into the second, and after
    each of them the tree is a decomposition. `first` and `second` are the two with their leaves.
    Its length is the number of pairs, and iterating yields them.

    >>> import mcg
    >>> edges = [("a", "b"), ("b", "c"), ("c", "d"), ("d", "e"), ("e", "f"), ("f", "a")]
    >>> first, second = (mcg.decompose(edges, order) for order in ("first", "last"))
    >>> mcg.compare(edges, first, second)
    <Comparison of 2 leaves: 1 move>
    >>> print(mcg.compare(edges, first, second))
    <Comparison of 2 leaves: 1 move>
    leaf 1 of the first with leaf 1 of the second
      {'b'} to {'b'}
      {'c'} to {'c'}
      {'d'} to {'d', 'e', 'f'}
      {'a', 'e', 'f'} to {'a'}
    leaf 2 of the first with leaf 2 of the second
      {'a'} to {'a', 'b', 'c'}
      {'b', 'c', 'd'} to {'d'}
      {'e'} to {'e'}
      {'f'} to {'f'}
    switch . {'d'} {'a'}

    Source: Lovász, "Matching structure and the matching lattice" (1987): any two tight cut
    decompositions of a graph have the same bricks and braces up to multiplicities of edges.
    """

    first: Decomposition
    second: Decomposition
    pairs: List[Pairing]
    moves: Moves

    def __hash__(self) -> int:
        return hash((self.first, self.second, len(self.moves)))

    def __len__(self) -> int:
        return len(self.pairs)

    def __iter__(self) -> Iterator[Pairing]:
        return iter(self.pairs)

    def __repr__(self) -> str:
        counts = counted(len(self.pairs), "leaf", "leaves"), counted(len(self.moves), "move")
        return "<Comparison of {}: {}>".format(*counts)

    def __str__(self) -> str:
        rows = [repr(self)]
        for leaf, partner, images in self.pairs:
            rows.append(f"leaf {leaf + 1} of the first with leaf {partner + 1} of the second")
            rows += [f"  {shown(a)} to {shown(b)}" for a, b in images.items()]
        return "\n".join([*rows, *map(str, self.moves)])

    def to_dict(self) -> Dict[str, Any]:
        """Returns the comparison as a dict, by the rules of `mcg.dicts`: `first` and `second` are
        trees as `Decomposition.to_dict` has them; each of `pairs` has the numbers of a `leaf` and
        of its `partner`, from 1, and in `map` the highest-numbered vertices of a block and of its
        image; `moves` are as `Moves.to_dict` has them."""
        graph = self.first.graph
        made = dicts.head(graph)
        for name, it in (("first", self.first.to_dict()), ("second", self.second.to_dict())):
            made[name] = {part: it[part] for part in ("tree", "leaves")}
        made["pairs"] = [
            {
                "leaf": leaf + 1,
                "partner": partner + 1,
                "map": [[graph.numbers(it)[-1] for it in row] for row in images.items()],
            }
            for leaf, partner, images in self.pairs
        ]
        return {**made, "moves": self.moves.to_dict(graph)["moves"]}

    @classmethod
    def from_dict(cls, given: Mapping[str, Any], graph: GraphLike) -> Comparison:
        """Returns the comparison of a dict that `to_dict` made, with the labels of the graph.
        Raises `BadText` for another dict, or a graph with other edges."""
        numbered = dicts.numbered(given, graph)
        with dicts.understood("a comparison"):
            start = dicts.head(numbered)
            first, second = (
                Decomposition.from_dict({**start, **given[it]}, numbered) for it in ("first", "second")
            )
            pairs: List[Pairing] = []
            for row in given["pairs"]:
                leaf, partner = row["leaf"] - 1, row["partner"] - 1
                images = {first.block(leaf, a): second.block(partner, b) for a, b in row["map"]}
                pairs.append((leaf, partner, images))
            moves = Moves.from_dict({**start, "moves": given["moves"]}, numbered)
            made = cls(first, second, pairs, moves)
        dicts.demand_same(made.to_dict(), given)
        return made

    def draw(self, **options: Any) -> Picture:
        """Returns the picture: both trees, matched leaves alike, and an arrow for each move. The
        options are those of `mcg.draw.draw_comparison`: `pos`, `graphs`, `labels`, `title`, `ax`."""
        from .draw.comparisons import draw_comparison

        return draw_comparison(self, **options)

    def to_dot(self) -> str:
        """Returns both trees in outline for Graphviz's `dot`, partners joined by dashed lines."""
        from .draw.comparisons import comparison_dot

        return comparison_dot(self)

    @classmethod
    def from_text(cls, text: str, graph: GraphLike, first: TreeLike, second: TreeLike) -> Comparison:
        """Returns the report of `mcg compare` in the labels of the graph. Raises `BadText`."""
        numbered = Graph(graph)
        return _read(report_texts.lines_of(text), filled(numbered, first), filled(numbered, second))


def filled(graph: Graph, tree: TreeLike) -> Decomposition:
    """Returns the tree with its leaves computed on this graph."""
    if isinstance(tree, Decomposition) and tree.graph.is_numbered_as(graph):
        return tree
    return Decomposition(graph, as_tree(tree))


def compare(graph: GraphLike, first: TreeLike, second: TreeLike) -> Comparison:
    """Returns how the leaves of two tight cut decompositions of the graph correspond, and moves
    that turn the first into the second.

    Raises `NotADerivation` if one of the trees is not a decomposition of the graph, `NotCovered`,
    `BadGraph`, `TooLarge`, `BadText`, and the exceptions on programs.

    >>> import mcg
    >>> tree = mcg.decompose("C~")
    >>> mcg.compare("C~", tree, tree)
    <Comparison of 1 leaf: 0 moves>
    """
    status, numbered, report = _asked("compare", graph, first, second)
    both = filled(numbered, first), filled(numbered, second)
    with reported("compare", status):
        return _read(report, *both)


def script(graph: GraphLike, first: TreeLike, second: TreeLike) -> Moves:
    """Returns moves that turn the first tight cut decomposition into the second. Raises what
    `compare` raises.

    >>> import mcg
    >>> edges = [("a", "b"), ("b", "c"), ("c", "d"), ("d", "e"), ("e", "f"), ("f", "a")]
    >>> print(mcg.script(edges, mcg.decompose(edges), mcg.decompose(edges, "last")))
    switch . {'d'} {'a'}
    """
    status, numbered, report = _asked("script", graph, first, second)
    with reported("script", status):
        moves = Moves.from_text("\n".join(report) + "\n", numbered)
        leaves = leaf_count(as_tree(first))
        report_texts.demand_exact(report_texts.script_lines(moves, numbered, leaves), report)
        return moves


def _asked(
    command: str, graph: GraphLike, first: TreeLike, second: TreeLike
) -> Tuple[int, Graph, List[str]]:
    """The status and the report of a command on two trees that are decompositions."""
    numbered = Graph(graph)
    files = {
        "graph": numbered.to_text(),
        "first": tree_text(numbered, first),
        "second": tree_text(numbered, second),
    }
    status, report = run(command, list(files), files)
    with reported(command, status):
        demand_covered(report, numbered)
        found = re.match("tree ([12]) refused ", report[0])
        if found:
            place = int(found[1])
            refused = refusal(report[0], numbered, (first, second)[place - 1])
            due = f"tree {place} refused {report_texts.refusal_words(numbered, refused)}"
            report_texts.demand_exact([due], report)
            raise NotADerivation(place, refused)
    return status, numbered, report


def _read(report: List[str], first: Decomposition, second: Decomposition) -> Comparison:
    with understood("compare"):
        return _read_lines(report, first, second)


def _read_lines(report: List[str], first: Decomposition, second: Decomposition) -> Comparison:
    head = re.fullmatch("same leaves ([0-9]+) moves ([0-9]+)", report[0])
    if not head or int(head[1]) != len(first.leaves):
        raise ValueError(report[0])
    last = 1 + int(head[2])
    graph = first.graph
    lines = [f"m mcg {graph.order}", *(row[len("move ") :] for row in report[1:last])]
    moves = Moves.from_text("\n".join(lines) + "\n", graph)
    pairs: List[Pairing] = []
    for row in report[last:]:
        word, a, _between, b = row.split()
        if word == "leaf":
            pairs.append((int(a) - 1, int(b) - 1, {}))
        else:
            leaf, partner, images = pairs[-1]
            images[first.block(leaf, int(a))] = second.block(partner, int(b))
    made = Comparison(first, second, pairs, moves)
    report_texts.demand_exact(report_texts.compare_lines(made), report)
    return made
