"""The graphs of a scene in the language of Graphviz: places, shapes and fills, for `neato -n`."""
from __future__ import annotations

from typing import List, Optional

from .plain import PlainGraph
from .scene import Disc, Path, Polygon, Scene

_SHAPES = {"square": "square", "diamond": "diamond", "hexagon": "hexagon"}
_SHAPES.update(pentagon="pentagon", triangle="triangle")


def quoted(text: str) -> str:
    """Returns a text in quotes, as Graphviz reads it."""
    return '"' + text.replace("\\", "\\\\").replace('"', '\\"') + '"'


def to_dot(scene: Scene) -> str:
    """Returns the vertices and edges of all graphs of a scene with their places. Links of a tree,
    curves and captions are left out."""
    rows: List[str] = []
    for mark in scene.marks:
        if isinstance(mark, Disc) and mark.key:
            rows.append(
                _vertex(mark.key, mark.name, mark.x, mark.y, mark.radius, "circle", mark.pen.fill)
            )
        elif isinstance(mark, Polygon) and mark.key:
            x = (min(p[0] for p in mark.points) + max(p[0] for p in mark.points)) / 2
            y = (min(p[1] for p in mark.points) + max(p[1] for p in mark.points)) / 2
            half = (max(p[0] for p in mark.points) - min(p[0] for p in mark.points)) / 2
            shape = _SHAPES[mark.shape]
            rows.append(_vertex(mark.key, mark.name, x, y, half, shape, mark.pen.fill))
        elif isinstance(mark, Path) and mark.ends:
            a, b = mark.ends
            pen = mark.pen
            look = f'color="{pen.stroke}", penwidth={pen.width:g}'
            look += ", style=dashed" if pen.dash else ""
            rows.append(f"  {quoted(a)} -- {quoted(b)} [{look}];")
    head = "graph {\n  node [fixedsize=true, fontsize=8, style=filled];\n"
    return head + "".join(f"{row}\n" for row in rows) + "}\n"


def _vertex(
    key: str, name: str, x: float, y: float, radius: float, shape: str, fill: Optional[str]
) -> str:
    size = f"{2 * radius / 72:.3f}"
    look = (
        f'label={quoted(name)}, pos="{x:.2f},{-y:.2f}!", width={size}, height={size}, shape={shape}'
    )
    ink = (
        ', fontcolor="#ffffff"'
        if fill and fill.lower() in ("#1c1c1c", "#16324f", "#a83a24")
        else ""
    )
    return f'  {quoted(key)} [{look}, fillcolor="{fill or "#ffffff"}"{ink}];'


def bare_dot(graph: PlainGraph) -> str:
    """Returns a graph without places, which Graphviz is to find."""
    rows = [f"  {quoted(str(v))} [label={quoted(name)}];" for v, name in enumerate(graph.names)]
    rows += [f"  {quoted(str(a))} -- {quoted(str(b))};" for a, b in graph.edges]
    return "graph {\n" + "".join(f"{row}\n" for row in rows) + "}\n"
