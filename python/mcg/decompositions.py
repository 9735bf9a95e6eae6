"""Tight cut decompositions: `decompose` finds one, and `check` decides whether a tree is one."""
from __future__ import annotations

import operator
import re
from dataclasses import dataclass, field, replace
from typing import Any, Dict, List, Mapping, Optional, Sequence, Tuple, Union

from . import dicts, report_texts, texts, words
from .analysis import demand_covered, verdict
from .errors import LIMIT, BadText
from .graphs import Graph, GraphLike
from .labels import counted, shown
from .programs import reported, run, understood
from .properties import ORDERS, Order
from .sources import Edge
from .trees import Block, Decomposition, Tree, TreeLike, as_tree, node_place, tree_text

MOST_PICKS, MOST_PICK = 127, 999_999_999


class Picks(List[int]):
    """Places of cuts among the candidates, which name an order of choice: the (k+1)-th pick
    belongs to the cut with number k in preorder, and is taken modulo the number of candidates.

    >>> print(Picks([3, 0]).to_text(), end="")
    s mcg 2
    pick 3
    pick 0
    """

    def to_text(self) -> str:
        """Returns the text in the pick format. Raises `BadText` for what it does not take."""
        if len(self) > MOST_PICKS:
            raise BadText(f"there are {len(self)} picks, and {MOST_PICKS} is the most", kind=LIMIT)
        for it in self:
            if (
                isinstance(it, bool)
                or not hasattr(it, "__index__")
                or not 0 <= operator.index(it) <= MOST_PICK
            ):
                raise BadText(
                    f"a pick is a number from 0 to {MOST_PICK:,}, and not {shown(it)}",
                    kind=texts.NUMBER,
                )
        return "\n".join([f"s mcg {len(self)}", *(f"pick {operator.index(it)}" for it in self)]) + "\n"

    @classmethod
    def from_text(cls, text: str) -> Picks:
        """Returns the picks of a text in the pick format. Raises `BadText`."""
        reader = texts.Reader(text)
        line, (count,) = reader.header("s", "mcg", 1)
        if count > MOST_PICKS:
            raise reader.fault(line, LIMIT)
        picks = cls()
        for _ in range(count):
            line, words = reader.take()
            if words[0] != "pick" or len(words) != 2:
                raise reader.fault(line, texts.WORD)
            picks += reader.numbers(line, words[1:])
        reader.end()
        return picks


@dataclass(frozen=True, repr=False)
class Refusal:
    """The first node of a tree that breaks a rule, in preorder from 1, and why.

    `why` is the number of the reason in docs/FORMATS.md, from 1 to 5. For 4, `matching` has the
    edges of a perfect matching of the contraction at that node with at least two edges in the
    cut; for 5, `cut` is the shore of a nontrivial tight cut of the leaf. Else these are None.
    `path` leads to the node, with a letter k for each step to `kept` and m for each to `merged`,
    and `shore` is the shore there, None for a leaf; of each cut that without the last vertex. Both
    are None if the tree is not known. `str` says it in words, with what would be right.

    >>> import mcg
    >>> edges = [("a", "b"), ("b", "c"), ("c", "d"), ("d", "e"), ("e", "f"), ("f", "a")]
    >>> print(mcg.check(edges, mcg.Cut(frozenset("ab"), mcg.Leaf(), mcg.Leaf())).refusal)
    at node 1 (in preorder; path ., shore {'a', 'b'}): its shore has an even number of blocks, so its cut is not tight (take another cut)
    """

    node: int
    why: int
    matching: Optional[List[Edge]] = None
    cut: Optional[Block] = None
    path: Optional[str] = None
    shore: Optional[Block] = None

    def __hash__(self) -> int:
        return hash((self.node, self.why, self.cut, self.path, self.shore))

    def __str__(self) -> str:
        return words.node_words(self)

    def __repr__(self) -> str:
        return f"<Refusal of node {self.node}: {words.node_fault(self.why)}>"

    def to_dict(self, graph: Graph) -> Dict[str, Any]:
        """Returns the refusal as a dict, in the numbers of the graph."""
        return {
            "node": self.node,
            "why": self.why,
            "matching": dicts.edge_numbers(graph, self.matching),
            "cut": None if self.cut is None else graph.numbers(self.cut),
            "path": self.path,
            "shore": None if self.shore is None else graph.numbers(self.shore),
        }

    @classmethod
    def from_dict(cls, given: Mapping[str, Any], graph: Graph) -> Refusal:
        """Returns the refusal of a dict that `to_dict` made."""
        with dicts.understood("a refusal"):
            sets = (None if given[it] is None else graph.labels(given[it]) for it in ("cut", "shore"))
            cut, shore = sets
            matching = None if given["matching"] is None else graph.edge_list(given["matching"])
            return cls(given["node"], given["why"], matching, cut, given["path"], shore)

    def placed(self, graph: Graph, tree: Tree) -> Refusal:
        """Returns the refusal with its path and its shore in that tree. Raises `ValueError` if the
        tree has no such node."""
        path, shore = node_place(graph, tree, self.node)
        return replace(self, path=path, shore=shore)


@dataclass(frozen=True, repr=False)
class TreeCheck:
    """What `check` found; it is true if the tree was accepted.

    `accepted`; if it was, the numbers of `leaves`, `bricks` and `braces`; if not, `refusal`, or
    if the graph is not matching covered, `reason` and `witness` as `NotCovered` has them. `str`
    says it in words.

    >>> import mcg
    >>> found = mcg.check([("a", "b")], mcg.Leaf())
    >>> found, bool(found)
    (<TreeCheck: accepted, 1 leaf, 0 bricks, 1 brace>, True)
    """

    accepted: bool
    leaves: Optional[int] = None
    bricks: Optional[int] = None
    braces: Optional[int] = None
    refusal: Optional[Refusal] = None
    reason: Optional[str] = None
    witness: Any = None
    graph: Optional[Graph] = field(default=None, compare=False)

    def __bool__(self) -> bool:
        return self.accepted

    def __repr__(self) -> str:
        if self.accepted:
            counts = counted(self.leaves or 0, "leaf", "leaves"), counted(self.bricks or 0, "brick")
            return "<TreeCheck: accepted, {}, {}, {}>".format(
                *counts, counted(self.braces or 0, "brace")
            )
        if self.refusal is not None:
            return f"<TreeCheck: refused at node {self.refusal.node}, {words.node_fault(self.refusal.why)}>"
        return f"<TreeCheck: not matching covered ({self.reason})>"

    def __str__(self) -> str:
        if self.refusal is not None:
            return f"the tree is not a tight cut decomposition; {self.refusal}"
        return repr(self) if self.accepted else words.uncovered_words(self.reason, self.witness)

    def to_dict(self) -> Dict[str, Any]:
        """Returns the answer as a dict with the names of its fields, by the rules of `mcg.dicts`."""
        graph = dicts.graph_for("answers", self.graph)
        return {
            **dicts.head(graph),
            **{name: getattr(self, name) for name in PLAIN},
            "refusal": None if self.refusal is None else self.refusal.to_dict(graph),
            "witness": dicts.witness(graph, self.reason, self.witness),
        }

    @classmethod
    def from_dict(cls, given: Mapping[str, Any], graph: GraphLike) -> TreeCheck:
        """Returns the answer of a dict that `to_dict` made, with the labels of the graph. Raises
        `BadText` for another dict, or a graph with other edges."""
        numbered = dicts.numbered(given, graph)
        with dicts.understood("a tree check"):
            found = given["refusal"]
            refused = None if found is None else Refusal.from_dict(found, numbered)
            witness = dicts.read_witness(numbered, given["reason"], given["witness"])
            plain = {name: given[name] for name in PLAIN}
            made = cls(**plain, refusal=refused, witness=witness, graph=numbered)
        dicts.demand_same(made.to_dict(), given)
        return made

    @classmethod
    def from_text(cls, text: str, graph: GraphLike, tree: Optional[TreeLike] = None) -> TreeCheck:
        """Returns the report of `mcg check` in the labels of the graph; with the tree, a refusal
        has its path and its shore. Raises `BadText`."""
        return _read(report_texts.lines_of(text), Graph(graph), tree)


# The fields of a `TreeCheck` that are numbers and texts.
PLAIN = ("accepted", "leaves", "bricks", "braces", "reason")


def decompose(graph: GraphLike, order: Union[Order, Sequence[int]] = "first") -> Decomposition:
    """Returns a tight cut decomposition of a matching covered graph into bricks and braces.

    At each step `order` chooses among the cuts that are found: `"first"`, `"last"`, `"balanced"`
    (the first whose sides differ least in size), or a list of picks, as docs/FORMATS.md has them.
    The bricks and braces are the same for every order, up to parallel edges (Lovász, "Matching
    structure and the matching lattice", 1987). Raises `NotCovered` if the graph is not matching
    covered, `BadGraph`, `TooLarge`, `ValueError` for another order, and the exceptions on programs.

    >>> import mcg
    >>> mcg.decompose("C~").leaves
    [<brick on 4 blocks, 6 pairs, 6 edges>]
    """
    if isinstance(order, (str, bytes)) and order not in ORDERS:
        raise ValueError(f"order is {', '.join(ORDERS)} or a list of picks, and not {order!r}")
    numbered = Graph(graph)
    files = {"graph": numbered.to_text()}
    if isinstance(order, str):
        status, report = run("decompose", ["graph", order], files)
    else:
        files["picks"] = Picks(order).to_text()
        status, report = run("decompose", ["graph", "script", "picks"], files)
    with reported("decompose", status):
        demand_covered(report, numbered)
        found = Decomposition.from_text("\n".join(report) + "\n", numbered)
        report_texts.demand_begins(report_texts.decompose_lines(found), report, "c name")
        return found


def check(graph: GraphLike, tree: TreeLike) -> TreeCheck:
    """Returns whether a tree is a tight cut decomposition of the graph into bricks and braces,
    and if not, what is wrong with it.

    A tree is a `Decomposition`, or made of `Cut(shore, kept, merged)` and `Leaf()`. Raises
    `BadGraph`, `TooLarge`, `BadText` for a tree that is outside the format (more than 127 nodes,
    an empty shore, a label that is not a vertex), and the exceptions on programs.

    >>> import mcg
    >>> mcg.check("C~", mcg.decompose("C~"))
    <TreeCheck: accepted, 1 leaf, 1 brick, 0 braces>
    """
    numbered = Graph(graph)
    files = {"graph": numbered.to_text(), "tree": tree_text(numbered, tree)}
    status, report = run("check", list(files), files)
    with reported("check", status):
        return _read(report, numbered, tree)


def refusal(line: str, graph: Graph, tree: Optional[TreeLike] = None) -> Refusal:
    """Returns the refusal at the end of a line `.. refused node K why W ..`, with its place in the
    tree if this is known."""
    found = re.fullmatch(".* refused node ([0-9]+) why ([0-9]+)(?: (matching|cut) ([0-9 ]+))?", line)
    if not found or not 1 <= int(found[2]) <= 5:
        raise ValueError(line)
    node, why, word, rest = int(found[1]), int(found[2]), found[3], found[4]
    numbers = [int(it) for it in (rest or "").split()]
    matching = graph.edge_list(numbers) if word == "matching" else None
    made = Refusal(node, why, matching, graph.labels(numbers) if word == "cut" else None)
    return made if tree is None else made.placed(graph, as_tree(tree))


def _read(report: List[str], graph: Graph, tree: Optional[TreeLike] = None) -> TreeCheck:
    with understood("check"):
        found = replace(_read_line(report[0], graph, tree), graph=graph)
        report_texts.demand_exact(report_texts.check_lines(found, graph), report)
        return found


def _read_line(line: str, graph: Graph, tree: Optional[TreeLike]) -> TreeCheck:
    if line.startswith("covered no"):
        reason, witness = verdict(line, graph) or ("", None)
        return TreeCheck(False, reason=reason, witness=witness)
    if line.startswith("tree "):
        return TreeCheck(False, refusal=refusal(line, graph, tree))
    found = re.fullmatch("accepted leaves ([0-9]+) bricks ([0-9]+) braces ([0-9]+)", line)
    if not found:
        raise ValueError(line)
    leaves, bricks, braces = map(int, found.groups())
    if leaves != bricks + braces:
        raise ValueError(line)
    return TreeCheck(True, leaves, bricks, braces)
