"""Checks the text of a report against a graph file and the other files of the command."""
from __future__ import annotations

import re
from itertools import zip_longest
from typing import Callable, Dict, List, Optional, Sequence, Tuple

from .. import report_texts
from ..analysis import Analysis, verdict
from ..comparisons import Comparison
from ..decompositions import Picks, TreeCheck, refusal
from ..ear_checks import EarsCheck
from ..ear_lists import Ears
from ..errors import BadText
from ..graphs import Graph, is_graph6
from ..moves import Moves
from ..programs import understood
from ..properties import Order
from ..replays import Replay
from ..report_texts import lines_of
from ..trees import Decomposition
from . import moves, orders, stages, structure, trees
from .structure import Given, need

# What a report begins with or has in it, the command that writes it, and its files after the graph.
REPORTS: List[Tuple[str, str, List[str]]] = [
    (r"graph [0-9]+ [0-9]+$", "analyse", []),
    (r"accepted leaves ", "check", ["TREE"]),
    (r"accepted steps |refused step ", "checkears", ["EARS"]),
    (r"same leaves ", "compare", ["TREE1", "TREE2"]),
    (r"move [0-9]+ (stuck|refused)", "replay", ["TREE", "MOVES"]),
    (r"m mcg ", "script", ["TREE1", "TREE2"]),
    (r"r mcg ", "ears", []),
    (r"(?s)t mcg (?=.*^c moves [0-9]+$)", "replay", ["TREE", "MOVES"]),
    (r"t mcg ", "decompose", []),
    (r"tree [12] refused ", "tree", []),
    (r"covered no ", "verdict", []),
]


def command_of(text: str) -> Tuple[str, List[str]]:
    """Returns the command that writes such a report, and the files that it reads after the graph;
    `tree` and `verdict` stand for the lines that several commands write. Raises `BadText`."""
    for pattern, command, files in REPORTS:
        if re.match(f"(?m){pattern}", text):
            return command, files
    raise BadText(
        "not a report of analyse, decompose, check, ears, checkears, compare, script or replay"
    )


def report(graph_text: str, text: str, *files: str, order: Optional[Order] = None) -> str:
    """Checks the text of a report on a graph file, and returns the command that it is from.

    `files` are the texts of the files that the command read after the graph: none for `analyse` and
    `ears`, none or the picks for `decompose`, the tree for `check`, the ears for `checkears`, both
    trees for `compare` and `script`, the tree and the moves for `replay`. For a line `tree 1
    refused ..` the trees are due too. Every byte of the report is read: what passes is what
    docs/FORMATS.md has, in its canonical form. A report of `decompose` passes if its `order` or the
    picks give its tree; with neither, if some picks do. Raises `Wrong`, `BadGraph` or `BadText` for
    a text outside its format, and `ValueError` for another order.

    >>> report("p mcg 2 1\\ne 1 2\\n", "t mcg 2\\nleaf\\nc leaf 1 brace\\nc block 1\\nc block 2\\n"
    ...     "c edge 1 2 by 1\\nc leaves 1 bricks 0 braces 1\\n", order="last")
    'decompose'
    """
    command, due = command_of(text)
    if command == "tree":
        due = ["TREE1", "TREE2"][: int(text[len("tree ")])]
    most = {"tree": 2, "verdict": 2, "decompose": 1}.get(command, len(due))
    if not len(due) <= len(files) <= most:
        raise BadText(
            f"a report of {command} is checked with the files {' '.join(due) or 'of the graph and the report alone'}"
        )
    if order is not None and command not in ("decompose", "verdict"):
        raise ValueError(f"a report of {command} has no order")
    graph = Graph.from_text(graph_text)
    if command == "decompose":
        rows = _decompose(graph, text, files, order)
    else:
        rows = CHECKS[command](graph, text, files)
    if command == "analyse" and is_graph6(graph_text):
        rows.append(f"graph6 {graph.graph6()}")
    need(text.endswith("\n"), "the last line has no end")
    for number, (row, found) in enumerate(zip_longest(rows, lines_of(text)), 1):
        need(row == found, f"line {number} is to be {row!r}, and is {found!r}")
    return command


def _tree(graph: Graph, text: str, files: Sequence[str]) -> List[str]:
    """The line `tree K refused ..`: tree K is the first that is no decomposition."""
    given = Given(graph)
    need(given.is_covered, "the graph is not matching covered")
    found = trees.Trees(given)
    place = int(text[len("tree ")])
    nodes = [trees.node_of(given, Decomposition.from_text(it, graph)) for it in files[:place]]
    for node in nodes[:-1]:
        trees.demand_derivation(found, node)
    with understood("a tree"):
        refused = refusal(lines_of(text)[0], graph)
    found.demand_refusal(nodes[-1], refused)
    return [f"tree {place} refused {report_texts.refusal_words(graph, refused)}"]


def _verdict(graph: Graph, text: str, _files: Sequence[str]) -> List[str]:
    """The line `covered no ..`."""
    with understood("a verdict"):
        reason, witness = verdict(lines_of(text)[0], graph) or ("", None)
    structure.verdict(Given(graph), False, reason, witness)
    return [report_texts.verdict_line(graph, reason, witness)]


def _names(graph: Graph, word: str) -> List[str]:
    """The lines with the names of the vertices, for a graph file of version 2."""
    names = enumerate(graph.vertices, 1)
    return [f"{word} {k} {name}" for k, name in names if isinstance(name, str)]


def _analyse(graph: Graph, text: str, _files: Sequence[str]) -> List[str]:
    analysis = Analysis.from_text(text, graph)
    structure.analyse(graph, analysis)
    return [*report_texts.analyse_lines(analysis), *_names(graph, "name")]


def _decompose(
    graph: Graph, text: str, files: Sequence[str], order: Optional[Order]
) -> List[str]:
    decomposition = Decomposition.from_text(text, graph)
    tree = trees.decomposed(graph, decomposition)
    if files and order is not None:
        raise ValueError("decompose takes an order or picks, and not both")
    if files:
        orders.demand_order(*tree, Picks.from_text(files[0]))
    elif order is not None:
        orders.demand_order(*tree, order)
    else:
        orders.demand_picks(*tree)
    return [*report_texts.decompose_lines(decomposition), *_names(graph, "c name")]


def _check(graph: Graph, text: str, files: Sequence[str]) -> List[str]:
    found = TreeCheck.from_text(text, graph)
    trees.check(graph, Decomposition.from_text(files[0], graph), found)
    return report_texts.check_lines(found, graph)


def _ears(graph: Graph, text: str, _files: Sequence[str]) -> List[str]:
    listed = Ears.from_text(text, graph)
    stages.ears(graph, listed)
    return report_texts.ears_lines(listed, graph)


def _checkears(graph: Graph, text: str, files: Sequence[str]) -> List[str]:
    found = EarsCheck.from_text(text, graph)
    stages.check_ears(graph, Ears.from_text(files[0], graph), found)
    return report_texts.checkears_lines(found, graph)


def _compare(graph: Graph, text: str, files: Sequence[str]) -> List[str]:
    first, second = (Decomposition.from_text(it, graph) for it in files[:2])
    found = Comparison.from_text(text, graph, first, second)
    moves.compare(graph, found)
    return report_texts.compare_lines(found)


def _script(graph: Graph, text: str, files: Sequence[str]) -> List[str]:
    """A script is what `replay` makes the second tree with."""
    first, second = (Decomposition.from_text(it, graph) for it in files[:2])
    listed = Moves.from_text(text, graph)
    moves.replay(graph, first, listed, Replay(second))
    cuts = len(first.leaves) - 1
    need(len(listed) <= 5 * cuts**2, f"more than {5 * cuts**2} moves for {cuts} cuts")
    return report_texts.script_lines(listed, graph, len(first.leaves))


def _replay(graph: Graph, text: str, files: Sequence[str]) -> List[str]:
    tree, listed = Decomposition.from_text(files[0], graph), Moves.from_text(files[1], graph)
    found = Replay.from_text(text, graph)
    moves.replay(graph, tree, listed, found)
    return (
        lines_of(text)
        if found.result is None
        else report_texts.replayed_lines(found.result, len(listed))
    )


CHECKS: Dict[str, Callable[[Graph, str, Sequence[str]], List[str]]] = {
    "analyse": _analyse,
    "check": _check,
    "ears": _ears,
    "checkears": _checkears,
    "compare": _compare,
    "script": _script,
    "replay": _replay,
    "tree": _tree,
    "verdict": _verdict,
}
