"""The part of a page on the graph itself. This needs no other package."""
from __future__ import annotations

from typing import List, Sequence, Tuple

from .analysed import look_of, matched, matching_of
from .graph_scene import Look, draw_graph
from .hypertext import braces, count, drawing, joined, safe, table
from .keys import Entry, add_key
from .plain import PlainGraph
from .reports import Reports
from .scene import Scene
from .style import Point


def graph_part(reports: Reports, plain: PlainGraph, places: Sequence[Point]) -> str:
    """Returns the picture of the graph, and what `analyse` says."""
    look = Look()
    key = look_of(reports.graph, reports.analysis, look)
    if reports.ears is not None:
        key += matched(reports.graph, matching_of(reports.ears), look)
    body = Scene()
    frame = draw_graph(body, plain, places, look)
    add_key(body, key + [Entry(short, name) for short, name in frame.key])
    figure = f'<figure>{drawing(body, "The graph")}</figure>'
    return f'<div class="two">{figure}{table(analysis_rows(reports, plain))}</div>'


def analysis_rows(reports: Reports, plain: PlainGraph) -> List[Tuple[str, str]]:
    """Returns what `analyse` says, as terms and words in HTML."""
    it, graph = reports.analysis, reports.graph

    def among(labels: object) -> str:
        return braces(plain, [v - 1 for v in graph.numbers(labels)])  # type: ignore[arg-type]

    rows = [
        ("vertices, edges", f"{it.order}, {it.size}"),
        ("components", str(it.components)),
        ("bipartite", _yes(it.bipartite)),
        ("matching number", str(it.matching_number)),
        ("deficiency", str(it.deficiency)),
    ]
    if it.D:
        rows += [(f"<i>{name}</i>", among(getattr(it, name))) for name in "DAC"]
    else:
        rows.append(("<i>D</i>, <i>A</i>", "empty"))
    rows.append(("allowed edges", "all" if len(it.allowed) == it.size else str(len(it.allowed))))
    rows.append(("matching covered", _yes(it.covered) + _why_not(reports, plain)))
    if it.covered:
        rows.append(("canonical classes", _classes(reports, plain)))
        pair = f": {among(it.equivalent_pair)} is in one class" if it.equivalent_pair else ""
        rows.append(("bicritical", _yes(bool(it.bicritical)) + pair))
        rows.append(("2-vertex cut", among(it.cut_pair) if it.cut_pair else "none"))
        rows.append(("kind", safe(it.kind)))
    return rows


def _yes(flag: bool) -> str:
    return "yes" if flag else "no"


def _why_not(reports: Reports, plain: PlainGraph) -> str:
    """Why a graph is not matching covered, after a colon."""
    it, graph = reports.analysis, reports.graph
    if it.covered:
        return ""
    if it.reason == "parts":
        a, b = (safe(plain.names[graph.number(v) - 1]) for v in it.witness)
        return f": {a} and {b} are in different components"
    if it.reason == "berge":
        shown = braces(plain, [v - 1 for v in graph.numbers(it.witness)])
        return (
            f": <i>G</i> − <i>S</i> has more than |<i>S</i>| odd components for <i>S</i> = {shown}"
        )
    if it.reason == "edge":
        a, b = (safe(plain.names[graph.number(v) - 1]) for v in it.witness[:2])
        return f": the edge from {a} to {b} is in no perfect matching"
    return ": it has fewer than two vertices"


def _classes(reports: Reports, plain: PlainGraph) -> str:
    graph = reports.graph
    classes = reports.analysis.classes or []
    large = sorted(
        (graph.numbers(it) for it in classes if len(it) > 1), key=lambda it: (-len(it), it)
    )
    if not large:
        return f"{len(classes)}, all single"
    shown = ", ".join(braces(plain, [v - 1 for v in it]) for it in large)
    rest = "" if sum(map(len, large)) == graph.order else ", the others single"
    return f"{len(classes)}: {shown}{rest}"


def summary(reports: Reports) -> str:
    """Returns how many bricks and braces there are, in words."""
    tree = reports.decomposition
    assert tree is not None
    counts = ((tree.bricks, "brick"), (tree.braces, "brace"))
    return joined([count(number, word) for number, word in counts if number])
