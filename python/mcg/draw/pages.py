"""A page on one graph: a single HTML file with inline SVG and a little script.

Without the script, and on paper, everything is there: the tree opened, all steps in rows.
"""
from __future__ import annotations

from typing import List, NamedTuple, Sequence, Tuple

from ..graphs import GraphLike
from . import assets
from .ears import Panels, steps_of
from .graphs import count_of, on_circle, places_of
from .hypertext import count, drawing, equation, listed, safe
from .needs import laid_out
from .nodes import Names, PlainTree, Set, leaf_marks, names_of, smaller_sets, tree_of
from .outlines import outline
from .page_graph import graph_part, summary
from .page_steps import MovesPart, ears_part
from .plain import PlainGraph
from .reports import Reports, reports_of
from .stages import Stage, stages_of
from .style import Point


class _Part(NamedTuple):
    """A part of a page: its place, how the links at the top call it, its heading and its body."""

    place: str
    link: str
    heading: str
    body: str


def page(graph: GraphLike, title: str = "") -> str:
    """Returns a page on a graph as a text of HTML: what `analyse` says with the picture, and for a
    matching covered graph the tree of its decomposition, its ears step by step, the moves to
    another decomposition one by one, and the reports.

    Without NumPy and NetworkX, which find places, the vertices are on a circle, and trees are in
    outline. Raises `BadGraph`, `TooLarge` and the exceptions on programs. A graph with 64 vertices
    takes about three seconds.
    """
    reports = reports_of(graph)
    plain = PlainGraph.of(reports.graph)
    parts = _parts(reports, plain)
    name = title or f"A graph with {count_of(reports.graph)}"
    links = "".join(f'<a href="#{it.place}">{it.link}</a>' for it in parts)
    sections = "".join(
        f'<section id="{it.place}"><h2>{it.heading}</h2>{it.body}</section>' for it in parts
    )
    css, script = assets.read("page.css"), assets.read("page.js")
    return (
        '<!DOCTYPE html>\n<html lang="en"><head><meta charset="utf-8">'
        '<meta name="viewport" content="width=device-width, initial-scale=1">'
        f"<title>{safe(name)}</title><style>\n{css}</style></head>\n"
        f"<body><header><h1>{safe(name)}</h1><p>{_head(reports)}</p><nav>{links}</nav></header>\n"
        f"<main>{sections}</main>\n<script>\n{script}</script></body></html>\n"
    )


def _head(reports: Reports) -> str:
    """What a graph is, in one sentence."""
    head = count_of(reports.graph)
    if reports.decomposition is None:
        return f"{head}; not matching covered."
    kind = reports.analysis.kind
    parts = f": {summary(reports)}" if kind == "composite" else ""
    return f"{head}; matching covered, a {kind}{parts}.".replace("a composite", "composite")


def _parts(reports: Reports, plain: PlainGraph) -> List[_Part]:
    stages: List[Stage] = []
    shores = []
    tree = None
    if reports.decomposition is not None:
        tree = tree_of(reports.decomposition, plain)
        shores = tree.shores()
    if reports.comparison is not None:
        stages = stages_of(reports.comparison, plain)
    places, found = _places(reports, plain, shores)
    parts = [_Part("graph", "graph", "The graph", graph_part(reports, plain, places))]
    if tree is not None and reports.ears is not None:
        every = shores + [shore for stage in stages for shore in stage.tree.shores()]
        names = names_of(every, plain.order)
        heading = f"A tight cut decomposition: {summary(reports)}"
        body = _tree(tree, names, places) if found else _outlined(tree, names)
        parts.append(_Part("tree", "decomposition", heading, body))
        steps, double = len(reports.ears.steps), reports.ears.double
        heading = f"An ear decomposition: {count(steps, 'step')}, {double} of them double"
        panels = Panels(plain, steps_of(reports.graph, reports.ears), places)
        parts.append(_Part("ears", "ears", heading, ears_part(panels)))
        if reports.comparison is not None:
            moves = reports.comparison.moves
            heading = f"From this decomposition to another: {count(len(moves), 'move')}"
            body = MovesPart(plain, stages, moves, names, found).html(places)
            parts.append(_Part("moves", "moves", heading, body))
    return [*parts, _Part("reports", "reports", "The reports", _reports(reports))]


def _places(
    reports: Reports, plain: PlainGraph, shores: Sequence[Set]
) -> Tuple[List[Point], bool]:
    """The places of the vertices, and whether a layout found them; else they are on a circle."""
    try:
        return places_of(reports.graph, plain, shores=shores), True
    except ImportError:
        circle = on_circle(reports.graph.vertices)
        return places_of(reports.graph, plain, circle), False


def _tree(tree: PlainTree, names: Names, places: Sequence[Point]) -> str:
    """The tree with the graph at each node."""
    laid_out("tree_places").arrange(tree, places)
    made: str = laid_out("page_tree").TreePart(tree, names).html()
    return made


def _outlined(tree: PlainTree, names: Names) -> str:
    """The tree in outline, and the sets that its names stand for."""
    scene = outline(tree, names, leaf_marks(len(tree.leaves)), captions=True)
    sets = smaller_sets(tree.shores(), tree.whole.order, names)
    figure = f'<figure>{drawing(scene, "the tree")}</figure>'
    return figure + listed([equation(tree.whole, it) for it in sets], "sets")


def _reports(reports: Reports) -> str:
    found = "".join(
        f"<details><summary>{safe(line)}</summary><pre>{safe(text)}</pre></details>"
        for line, text in reports.texts
    )
    return f'<div class="reports">{found}</div>'
