"""What moves make of a decomposition: `replay`."""
from __future__ import annotations

import re
from dataclasses import dataclass, field, replace
from typing import Any, Dict, Iterable, List, Mapping, Optional, Tuple

from . import dicts, report_texts, words
from .analysis import verdict
from .decompositions import Refusal, refusal
from .graphs import Graph, GraphLike
from .labels import counted
from .moves import Move, Moves, as_moves
from .programs import reported, run, understood
from .tree_nodes import leaf_count
from .trees import Decomposition, TreeLike, as_tree, tree_text

# The fields of a `Replay` that are numbers and texts.
PLAIN = ("move", "stuck", "reason")


@dataclass(frozen=True, repr=False)
class Replay:
    """What `replay` found; it is true if all moves were made.

    `result` is the decomposition after the last move; the kinds of its leaves are not known. If a
    move failed, `move` is its number from 1, and `refusal` says why its result is not a
    decomposition, or is None if it has no result. If the first tree is not a decomposition,
    `move` is 0; and if the graph is not matching covered, `reason` and `witness` are set. `stuck`
    is a word on why a move has no result, if the tree and the moves are known: `"no cut"`,
    `"crossing"` or `"not parts"`. `str` says all of this in words, with what would be right.

    >>> import mcg
    >>> edges = [("a", "b"), ("b", "c"), ("c", "d"), ("d", "e"), ("e", "f"), ("f", "a")]
    >>> print(mcg.replay(edges, mcg.decompose(edges), [mcg.Rotate("k")]))
    move 1 has no result: its path does not lead to a cut that it can change (rotate needs a cut below the root)
    """

    result: Optional[Decomposition] = None
    move: Optional[int] = None
    refusal: Optional[Refusal] = None
    reason: Optional[str] = None
    witness: Any = None
    stuck: Optional[str] = None
    graph: Optional[Graph] = field(default=None, compare=False)

    def __bool__(self) -> bool:
        return self.result is not None

    def __repr__(self) -> str:
        if self.result is not None:
            return f"<Replay: all moves were made, {counted(len(self.result), 'leaf', 'leaves')}>"
        if self.move is not None and self.refusal is not None:
            what = f"move {self.move}" if self.move else "the tree"
            return f"<Replay: {what} is refused at node {self.refusal.node}, {words.node_fault(self.refusal.why)}>"
        return (
            f"<Replay: move {self.move} has no result>"
            if self.move
            else f"<Replay: not matching covered ({self.reason})>"
        )

    def __str__(self) -> str:
        return str(self.result) if self.result is not None else words.replay_words(self)

    def to_dict(self) -> Dict[str, Any]:
        """Returns the answer as a dict with the names of its fields, by the rules of `mcg.dicts`."""
        graph = dicts.graph_for("answers", self.graph)
        made = None if self.result is None else self.result.to_dict()
        return {
            **dicts.head(graph),
            **{name: getattr(self, name) for name in PLAIN},
            "result": made and {part: made[part] for part in ("tree", "leaves")},
            "refusal": None if self.refusal is None else self.refusal.to_dict(graph),
            "witness": dicts.witness(graph, self.reason, self.witness),
        }

    @classmethod
    def from_dict(cls, given: Mapping[str, Any], graph: GraphLike) -> Replay:
        """Returns the answer of a dict that `to_dict` made, with the labels of the graph. Raises
        `BadText` for another dict, or a graph with other edges."""
        numbered = dicts.numbered(given, graph)
        with dicts.understood("a replay"):
            values: Dict[str, Any] = {name: given[name] for name in PLAIN}
            if given["result"] is not None:
                values["result"] = Decomposition.from_dict(
                    {**dicts.head(numbered), **given["result"]}, numbered
                )
            if given["refusal"] is not None:
                values["refusal"] = Refusal.from_dict(given["refusal"], numbered)
            values["witness"] = dicts.read_witness(numbered, given["reason"], given["witness"])
            made = cls(**values, graph=numbered)
        dicts.demand_same(made.to_dict(), given)
        return made

    @classmethod
    def from_text(cls, text: str, graph: GraphLike) -> Replay:
        """Returns the report of `mcg replay` in the labels of the graph. Raises `BadText`."""
        return _understood(report_texts.lines_of(text), Graph(graph))


def replay(graph: GraphLike, tree: TreeLike, moves: Iterable[Move]) -> Replay:
    """Returns what the moves make of a tight cut decomposition, or the first move that fails.

    Raises `BadGraph`, `TooLarge`, `BadText`, and the exceptions on programs.

    >>> import mcg
    >>> edges = [("a", "b"), ("b", "c"), ("c", "d"), ("d", "e"), ("e", "f"), ("f", "a")]
    >>> mcg.replay(edges, mcg.decompose(edges), [])
    <Replay: all moves were made, 2 leaves>
    """
    numbered, listed = Graph(graph), as_moves(moves)
    files = {
        "graph": numbered.to_text(),
        "tree": tree_text(numbered, tree),
        "moves": listed.to_text(numbered),
    }
    status, report = run("replay", list(files), files)
    with reported("replay", status):
        found = _understood(report, numbered)
        if found.result is not None:
            report_texts.demand_exact(report_texts.replayed_lines(found.result, len(listed)), report)
        return found if found.move is None else _placed(found, numbered, tree, listed)


def _placed(found: Replay, graph: Graph, tree: TreeLike, moves: Moves) -> Replay:
    """The answer with the place of its refusal, or with the word on why a move has no result. No
    move changes the number of the nodes of a tree."""
    if (found.move or 0) > len(moves):
        raise ValueError(f"there is no move {found.move}")
    if found.refusal is not None and found.refusal.node > 2 * leaf_count(as_tree(tree)) - 1:
        raise ValueError(f"the tree has no node {found.refusal.node}")
    from .move_places import (
        stuck_or_made,
    )  # (its moves are those of mcg.verify, which needs this module)

    stuck, after = stuck_or_made(graph, as_tree(tree), moves[: found.move])
    if found.refusal is None:
        return replace(found, stuck=stuck)
    return found if after is None else replace(found, refusal=found.refusal.placed(graph, after))


def _understood(report: List[str], graph: Graph) -> Replay:
    with understood("replay"):
        found, due = _read(report, graph)
        report_texts.demand_exact(due, report)
        return replace(found, graph=graph)


def _read(report: List[str], graph: Graph) -> Tuple[Replay, List[str]]:
    """The answer, and the lines that it has in a report."""
    line = report[0]
    if line.startswith("covered no"):
        reason, witness = verdict(line, graph) or ("", None)
        return Replay(reason=reason, witness=witness), [
            report_texts.verdict_line(graph, reason, witness)
        ]
    if line.startswith("tree "):
        refused = refusal(line, graph)
        return Replay(move=0, refusal=refused), [
            f"tree 1 refused {report_texts.refusal_words(graph, refused)}"
        ]
    found = re.fullmatch("move ([1-9][0-9]*) (stuck|refused .*)", line)
    if found and found[2] == "stuck":
        return Replay(move=int(found[1])), [f"move {found[1]} stuck"]
    if found:
        refused = refusal(line, graph)
        due = f"move {found[1]} refused {report_texts.refusal_words(graph, refused)}"
        return Replay(move=int(found[1]), refusal=refused), [due]
    made = Decomposition.from_text("\n".join(report) + "\n", graph)
    rows = report_texts.lines_of(made.to_text())
    counts = [it for it in report[len(rows) :] if re.fullmatch("c moves (0|[1-9][0-9]*)", it)]
    return Replay(result=made), [*rows, *counts[:1]]
