"""Pieces of HTML: every label goes through one function that escapes it."""
from __future__ import annotations

from html import escape
from typing import Iterable, List, Sequence, Tuple

from .nodes import NamedSet
from .plain import PlainGraph
from .scene import Runs, Scene
from .svg import to_svg

SCALE = 1.2  # of the drawings on a page


def safe(text: object) -> str:
    """Returns a text as HTML shows it, also in attributes."""
    return escape(str(text), quote=True)


def runs(words: Runs) -> str:
    """Returns a text with the names of sets."""
    found = ""
    for run in words:
        text = safe(run.text)
        if run.over:
            text = f'<span class="bar" title="complement">{text}</span>'
        for tag, wanted in (("i", run.italic), ("sub", run.sub), ("b", run.bold)):
            if wanted:
                text = f"<{tag}>{text}</{tag}>"
        found += text
    return found


def braces(graph: PlainGraph, vertices: Iterable[int]) -> str:
    """Returns a set of vertices."""
    return "{" + ", ".join(safe(graph.names[v]) for v in sorted(vertices)) + "}"


def equation(graph: PlainGraph, named: NamedSet) -> str:
    """Returns what the name of a set stands for; a large set by what it leaves out."""
    if 2 * len(named.vertices) <= graph.order:
        return f"{runs(named.name)} = {braces(graph, named.vertices)}"
    rest = frozenset(range(graph.order)) - named.vertices
    return f"{runs(named.name)} = all but {braces(graph, rest)}"


def drawing(scene: Scene, title: str, least: float = 0.0, scale: float = SCALE) -> str:
    """Returns a scene as an element of the page."""
    return to_svg(scene, title, is_card=False, margin=6.0, scale=scale, least=least).strip()


def table(rows: Sequence[Tuple[str, str]]) -> str:
    """Returns a list of terms, both being HTML."""
    return "<dl>" + "".join(f"<dt>{term}</dt><dd>{words}</dd>" for term, words in rows) + "</dl>"


def listed(items: Sequence[str], kind: str) -> str:
    """Returns a list of HTML."""
    return f'<ul class="{kind}">' + "".join(f"<li>{it}</li>" for it in items) + "</ul>"


def count(number: int, word: str) -> str:
    """Returns a number with its word in the singular or the plural."""
    return f"{number} {word}" + ("" if number == 1 else "s")


def joined(parts: List[str]) -> str:
    """Returns parts joined by "and"."""
    return " and ".join(parts)
