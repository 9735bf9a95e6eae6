"""The lines of the reports, as docs/FORMATS.md has them, of what was read from them.

A report that was read is written again and compared, so that no byte of it is left unread.
"""
from __future__ import annotations

import re
from typing import TYPE_CHECKING, Any, Iterable, List, Optional, Sequence

from .graphs import Graph
from .texts import spaced

if TYPE_CHECKING:
    from .analysis import Analysis
    from .comparisons import Comparison
    from .decompositions import Refusal, TreeCheck
    from .ear_checks import EarsCheck
    from .ear_lists import Ears
    from .moves import Moves
    from .trees import Decomposition


def demand_exact(due: Sequence[str], found: Sequence[str]) -> None:
    """Raises `ValueError` if the lines of a report are not those that are due."""
    if len(due) != len(found):
        raise ValueError(f"the report has {len(found)} lines, and {len(due)} are due")
    for one, other in zip(due, found):
        if one != other:
            raise ValueError(f"{one!r} is expected, and not {other!r}")


def demand_begins(due: Sequence[str], found: Sequence[str], word: str) -> None:
    """The same, for a report that may go on with the names of the vertices, a line each that
    begins with `word`."""
    demand_exact(due, found[: len(due)])
    names = found[len(due) :]
    rows = zip(range(1, len(names) + 1), names)
    if not all(re.fullmatch(f"{word} {k} [A-Za-z0-9_.-]{{1,16}}", row) for k, row in rows):
        raise ValueError(f"{names[0]!r} is not expected")


def lines_of(text: str) -> List[str]:
    """Returns the lines of a report."""
    return text[:-1].split("\n") if text.endswith("\n") else text.split("\n")


def verdict_line(graph: Graph, reason: Optional[str], witness: Any) -> str:
    """Returns the line that says why a graph is not matching covered, or that it is."""
    if reason is None:
        return "covered yes"
    numbers: Iterable[int] = ()
    if reason == "parts":
        numbers = [graph.number(it) for it in witness]
    elif reason == "berge":
        numbers = graph.numbers(witness)
    elif reason == "edge":
        numbers = [graph.edge_number(witness)]
    return spaced(f"covered no {reason}", numbers)


def yes_or_no(holds: Optional[bool]) -> str:
    """Returns how a report says whether something holds."""
    return "yes" if holds else "no"


def analyse_lines(report: Analysis) -> List[str]:
    """Returns the report of `analyse`, without what follows the kind."""
    graph = report.graph
    rows = [
        f"graph {report.order} {report.size}",
        f"components {report.components}",
        f"bipartite {yes_or_no(report.bipartite)}",
        f"matching {report.matching_number}",
        f"deficiency {report.deficiency}",
        *(spaced(name, graph.numbers(getattr(report, name))) for name in ("D", "A", "C")),
        spaced("allowed", map(graph.edge_number, report.allowed)),
        verdict_line(graph, report.reason, report.witness),
    ]
    if not report.covered:
        return rows
    classes = report.classes or []
    shore = graph.numbers(report.shore or ())
    return [
        *rows,
        f"classes {len(classes)}",
        *(spaced("class", graph.numbers(it)) for it in classes),
        spaced(
            f"bicritical {yes_or_no(report.bicritical)}",
            map(graph.number, report.equivalent_pair or ()),
        ),
        spaced("cutpair", map(graph.number, report.cut_pair)) if report.cut_pair else "cutpair none",
        spaced(f"kind {report.kind}", shore),
    ]


def decompose_lines(report: Decomposition) -> List[str]:
    """Returns the report of `decompose`, without the names of the vertices."""
    graph = report.graph
    rows = lines_of(report.to_text())
    for number, leaf in enumerate(report.leaves, 1):
        blocks = {block: graph.numbers(block) for block in leaf.blocks}
        rows.append(f"c leaf {number} {leaf.kind}")
        rows += [spaced("c block", it) for it in blocks.values()]
        pairs = {tuple(sorted(blocks[it][-1] for it in pair)): pair for pair in leaf.edges}
        for (a, b), pair in sorted(pairs.items()):
            rows.append(spaced(f"c edge {a} {b} by", map(graph.edge_number, leaf.edges[pair])))
    return [*rows, f"c leaves {len(report.leaves)} bricks {report.bricks} braces {report.braces}"]


def refusal_words(graph: Graph, refusal: Refusal) -> str:
    """Returns the words of a report from `node` on."""
    words = f"node {refusal.node} why {refusal.why}"
    if refusal.matching is not None:
        return spaced(f"{words} matching", map(graph.edge_number, refusal.matching))
    return words if refusal.cut is None else spaced(f"{words} cut", graph.numbers(refusal.cut))


def check_lines(report: TreeCheck, graph: Graph) -> List[str]:
    """Returns the report of `check`."""
    if report.accepted:
        return [f"accepted leaves {report.leaves} bricks {report.bricks} braces {report.braces}"]
    if report.refusal is not None:
        return [f"tree 1 refused {refusal_words(graph, report.refusal)}"]
    return [verdict_line(graph, report.reason, report.witness)]


def ears_lines(report: Ears, graph: Graph) -> List[str]:
    """Returns the report of `ears`."""
    counts = f"c steps {len(report.steps)} single {report.single} double {report.double}"
    return [*lines_of(report.to_text(graph)), counts]


def checkears_lines(report: EarsCheck, graph: Graph) -> List[str]:
    """Returns the report of `checkears`."""
    if report.accepted:
        return [f"accepted steps {report.steps} single {report.single} double {report.double}"]
    if report.step is None:
        return [verdict_line(graph, report.reason, report.witness)]
    edges = [] if report.edge is None else [graph.edge_number(report.edge)]
    words = f"refused step {report.step} why {report.why}"
    return [spaced(f"{words} edge", edges) if edges else words]


def compare_lines(report: Comparison) -> List[str]:
    """Returns the report of `compare`."""
    graph = report.first.graph
    rows = [f"same leaves {len(report.pairs)} moves {len(report.moves)}"]
    rows += [f"move {row}" for row in lines_of(report.moves.to_text(graph))[1:]]
    for leaf, partner, images in report.pairs:
        rows.append(f"leaf {leaf + 1} with {partner + 1}")
        names = sorted((graph.numbers(a)[-1], graph.numbers(b)[-1]) for a, b in images.items())
        rows += [f"map {a} to {b}" for a, b in names]
    return rows


def script_lines(moves: Moves, graph: Graph, leaves: int) -> List[str]:
    """Returns the report of `script` on two trees with so many leaves."""
    return [*lines_of(moves.to_text(graph)), f"c leaves {leaves} moves {len(moves)}"]


def replayed_lines(result: Decomposition, moves: int) -> List[str]:
    """Returns the report of `replay` where all moves can be made."""
    return [*lines_of(result.to_text()), f"c moves {moves}"]
