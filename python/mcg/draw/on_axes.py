"""A scene on axes of Matplotlib: one point of the scene is one of the figure, or what the axes
allow."""
from __future__ import annotations

from typing import Any, Dict, List, Optional

from matplotlib import font_manager
from matplotlib.figure import Figure
from matplotlib.patches import Circle, FancyBboxPatch, PathPatch, Polygon, Rectangle
from matplotlib.path import Path as Curve

from . import scene as marks
from . import style

_CODES = {"M": [Curve.MOVETO], "L": [Curve.LINETO], "C": [Curve.CURVE4] * 3}
_FAMILIES = ("Helvetica", "Arial", "Liberation Sans", "Nimbus Sans", "DejaVu Sans")


def _family() -> str:
    """The first font that is there: one that is missing costs a warning for each text."""
    there = {font.name for font in font_manager.fontManager.ttflist}
    return next((name for name in _FAMILIES if name in there), "sans-serif")


def figure_of(scene: marks.Scene, margin: float = style.MARGIN) -> Figure:
    """Returns a new figure of the size of the scene."""
    size = ((scene.wide + 2 * margin) / 72, (scene.high + 2 * margin) / 72)
    figure = Figure(figsize=size)
    draw_on(scene, figure.add_axes([0, 0, 1, 1]), margin)
    return figure


def draw_on(scene: marks.Scene, axes: Any, margin: float = style.MARGIN) -> None:
    """Draws a scene on axes, as large as they allow."""
    x0, y0, x1, y1 = scene.box
    axes.set_xlim(x0 - margin, x1 + margin)
    axes.set_ylim(y1 + margin, y0 - margin)
    axes.set_aspect("equal")
    axes.axis("off")
    box = axes.get_window_extent()
    wide, high = scene.wide + 2 * margin, scene.high + 2 * margin
    scale = min(box.width / wide, box.height / high) * 72 / axes.figure.dpi
    family = _family()
    for order, mark in enumerate(scene.marks):
        if isinstance(mark, marks.Text):
            _draw_text(mark, axes, scale, family, order)
        elif not isinstance(mark, (marks.Group, marks.End)):
            axes.add_patch(_patch(mark, _look(mark.pen, scale, order)))


def _look(pen: marks.Pen, scale: float, order: int) -> Dict[str, Any]:
    look: Dict[str, Any] = {
        "facecolor": pen.fill or "none",
        "edgecolor": (pen.stroke or "none") if pen.width else "none",
        "linewidth": pen.width * scale,
        "zorder": 2 + order / 1000,
    }
    if pen.dash and pen.width:
        look["linestyle"] = (0, tuple(d / pen.width for d in pen.dash))
    return look


def _patch(mark: object, look: Dict[str, Any]) -> Any:
    if isinstance(mark, marks.Path):
        return PathPatch(_curve(mark), capstyle="butt", joinstyle="round", **look)
    if isinstance(mark, marks.Disc):
        return Circle((mark.x, mark.y), mark.radius, **look)
    if isinstance(mark, marks.Polygon):
        return Polygon(mark.points, closed=True, joinstyle="round", **look)
    assert isinstance(mark, marks.Rectangle)
    r = mark.radius
    if not r:
        return Rectangle((mark.x, mark.y), mark.wide, mark.high, **look)
    style_of_box = f"round,pad={r},rounding_size={r}"
    inner = (mark.wide - 2 * r, mark.high - 2 * r)
    return FancyBboxPatch((mark.x + r, mark.y + r), *inner, boxstyle=style_of_box, **look)


def _curve(mark: marks.Path) -> Curve:
    points: List[Any] = []
    codes: List[Any] = []
    for it in mark.steps:
        if it[0] == "Z":
            points.append(points[0])
            codes.append(Curve.CLOSEPOLY)
        else:
            points += list(zip(it[1::2], it[2::2]))
            codes += _CODES[it[0]]
    return Curve(points, codes)


def _draw_text(mark: marks.Text, axes: Any, scale: float, family: str, order: int) -> None:
    axes.text(
        mark.x,
        mark.y + 0.36 * mark.size,
        "".join(_words(run) for run in mark.runs),
        fontsize=mark.size * scale,
        color=mark.fill,
        zorder=2 + order / 1000,
        verticalalignment="baseline",
        horizontalalignment={"middle": "center", "start": "left", "end": "right"}[mark.anchor],
        family=family,
        math_fontfamily="stix",
    )


def _words(run: marks.Run) -> str:
    """Mathtext for the names of sets, plain text for everything else; a dollar sign stays one."""
    text = run.text.replace("$", r"\$")
    if run.italic:
        return rf"$\overline{{{text}}}$" if run.over else f"${text}$"
    if run.sub:
        return f"$_{{{text}}}$"
    return rf"$\bf{{{text}}}$" if run.bold and text.isalnum() else text


def written(scene: marks.Scene, path: str, title: Optional[str] = None) -> None:
    """Writes a scene into a file of a kind that Matplotlib knows by its ending."""
    figure_of(scene).savefig(path, dpi=200, metadata={"Title": title} if title else None)
