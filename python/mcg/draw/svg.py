"""A scene as SVG: text stays text, places have one decimal, and each run writes the same bytes."""
from __future__ import annotations

from html import escape
from typing import Dict, List, NamedTuple, Optional

from . import style
from .scene import Disc, End, Group, Path, Pen, Polygon, Rectangle, Run, Scene, Text


def number(x: float) -> str:
    """Returns a length with at most one decimal."""
    text = f"{x:.1f}".rstrip("0").rstrip(".")
    return "0" if text in ("-0", "") else text


class _Shared(NamedTuple):
    """What all marks of a group share, so that it is written once, at the group."""

    pen: Optional[Pen] = None
    size: float = 0.0


_GROUPS: Dict[str, Pen] = {
    "edges": Pen(),
    "vertices": Pen(style.PAPER, style.INK, style.OUTLINE),
}


def _attributes(pen: Pen, shared: Optional[Pen], is_line: bool) -> str:
    """How a mark is filled and outlined, as far as its group does not say so."""
    found = []
    if shared is None or pen.fill != shared.fill:
        found.append(f'fill="{pen.fill or "none"}"')
    if shared is not None and (not pen.stroke or not pen.width):
        found.append('stroke="none"')
    elif pen.stroke and pen.width:
        if shared is None or pen.stroke != shared.stroke:
            found.append(f'stroke="{pen.stroke}"')
        if shared is None or pen.width != shared.width:
            found.append(f'stroke-width="{round(pen.width, 2):g}"')
        if pen.dash:
            found.append('stroke-dasharray="' + " ".join(map(number, pen.dash)) + '"')
        if shared is None and is_line:
            found.append('stroke-linejoin="round"')
    return "".join(f" {it}" for it in found)


def _run(run: Run, size: float, down: float) -> str:
    """A piece of a text that begins that far below the line."""
    want = 0.22 * size if run.sub else 0.0
    more = f' dy="{number(want - down)}"' if want != down else ""
    if run.sub:
        more += f' font-size="{number(0.7 * size)}"'
    if run.italic:
        more += f' font-style="italic" font-family="{style.SERIF}"'
    if run.bold:
        more += ' font-weight="bold"'
    return f"<tspan{more}>{escape(run.text)}</tspan>" if more else escape(run.text)


def _text(mark: Text, shared: Optional[_Shared], is_outlined: bool) -> str:
    size = mark.size
    if shared and shared.size:
        look = "" if size == shared.size else f' font-size="{number(size)}"'
        look += "" if mark.fill == style.INK else f' fill="{mark.fill}"'
    else:
        look = f' font-size="{number(size)}" text-anchor="{mark.anchor}" fill="{mark.fill}"'
    if is_outlined:
        look += ' stroke="none"'
    inner, bars, x, down = "", [], mark.left, 0.0
    for run in mark.runs:
        inner += _run(run, size, down)
        down = 0.22 * size if run.sub else 0.0
        wide = style.width(run.text, size * (0.7 if run.sub else 1))
        if run.over:
            bars.append((x + 0.12 * wide, x + 1.02 * wide, mark.y - 0.47 * size))
        x += wide
    if mark.kind:
        look += f' class="{mark.kind}"'
    if len(mark.runs) > 1:
        # blanks at the ends of a run stay (a no-break space does not, in librsvg)
        look += ' xml:space="preserve"'
    rows = f'<text x="{number(mark.x)}" y="{number(mark.y + 0.36 * size)}"{look}>{inner}</text>'
    wide_of_bar = number(max(0.7, 0.07 * size))
    for a, b, y in bars:
        path = f'<path d="M{number(a)} {number(y)}H{number(b)}"'
        rows += f'{path} stroke="{mark.fill}" stroke-width="{wide_of_bar}"/>'
    return rows


def _open(group: Group) -> str:
    title = f"<title>{escape(group.title)}</title>" if group.title else ""
    if group.href:
        # an element that can be reached with the keyboard
        label = escape(group.title, quote=True)
        return f'<a href="{escape(group.href, quote=True)}" aria-label="{label}">'
    if group.kind in _GROUPS:
        pen = _GROUPS[group.kind]._replace(width=group.data.get("width", _GROUPS[group.kind].width))
        return (
            f'<g class="{group.kind}" fill="{pen.fill or "none"}" stroke="{pen.stroke}"'
            f' stroke-width="{pen.width:g}" stroke-linejoin="round">'
        )
    if group.kind == "names":
        size = number(group.data["size"])
        return (
            f'<g class="names" text-anchor="middle" fill="{style.INK}" font-size="{size}"'
            ' pointer-events="none">'
        )
    data = "".join(f' data-{k}="{escape(str(v), quote=True)}"' for k, v in group.data.items())
    return f'<g class="{escape(group.kind, quote=True)}"{data}>{title}'


def _shares(group: Group, before: Optional[_Shared]) -> Optional[_Shared]:
    """What the marks in a group share."""
    if group.kind in _GROUPS:
        pen = _GROUPS[group.kind]
        return _Shared(pen._replace(width=group.data.get("width", pen.width)))
    if group.kind == "names":
        return _Shared(size=group.data["size"])
    return before if group.kind == "v" else None


def marks(scene: Scene) -> str:
    """Returns the elements of a scene, one a line."""
    rows: List[str] = []
    stack: List[_Shared] = [_Shared()]
    closing: List[str] = []
    for mark in scene.marks:
        shared = stack[-1]
        if isinstance(mark, Group):
            rows.append(_open(mark))
            stack.append(_shares(mark, shared) or _Shared())
            closing.append("</a>" if mark.href else "</g>")
        elif isinstance(mark, End):
            stack.pop()
            rows.append(closing.pop())
        elif isinstance(mark, Text):
            rows.append(_text(mark, shared, shared.pen is not None))
        else:
            rows.append(_shape(mark, shared.pen))
    return "\n".join(rows)


def _shape(mark: object, shared: Optional[Pen]) -> str:
    if isinstance(mark, Path):
        d = "".join(it[0] + " ".join(map(number, it[1:])) for it in mark.steps)
        return f'<path d="{d}"{_attributes(mark.pen, shared, True)}/>'
    if isinstance(mark, Disc):
        at = f'cx="{number(mark.x)}" cy="{number(mark.y)}" r="{number(mark.radius)}"'
        return f"<circle {at}{_attributes(mark.pen, shared, False)}/>"
    if isinstance(mark, Polygon):
        points = " ".join(f"{number(x)},{number(y)}" for x, y in mark.points)
        return f'<polygon points="{points}"{_attributes(mark.pen, shared, True)}/>'
    assert isinstance(mark, Rectangle)
    size = f'width="{number(mark.wide)}" height="{number(mark.high)}" rx="{number(mark.radius)}"'
    place = f'x="{number(mark.x)}" y="{number(mark.y)}"'
    return f"<rect {place} {size}{_attributes(mark.pen, shared, False)}/>"


def to_svg(
    scene: Scene,
    title: str = "",
    words: str = "",
    is_card: bool = True,
    margin: float = style.MARGIN,
    scale: float = 1.0,
    least: float = 0.0,
) -> str:
    """Returns the whole picture, on a white card of its own so that it reads on a dark page, with
    a title and words for those who do not see it. It is at least `least` wide."""
    x0, y0, x1, y1 = scene.box if scene.marks else (0.0, 0.0, 0.0, 0.0)
    more = margin + max(0.0, least - (x1 - x0) - 2 * margin) / 2
    wide, high = x1 - x0 + 2 * more, y1 - y0 + 2 * margin
    left, top = number(x0 - more), number(y0 - margin)
    head = (
        f'<svg xmlns="http://www.w3.org/2000/svg" width="{number(wide * scale)}"'
        f' height="{number(high * scale)}" viewBox="{left} {top} {number(wide)} {number(high)}"'
        f' font-family="{style.SANS}" role="img">'
    )
    rows = [head, f"<title>{escape(title)}</title>" if title else ""]
    rows.append(f"<desc>{escape(words)}</desc>" if words else "")
    if is_card:
        size = f'width="{number(wide)}" height="{number(high)}"'
        rows.append(f'<rect x="{left}" y="{top}" {size} fill="{style.PAPER}"/>')
    rows += [marks(scene), "</svg>"]
    return "\n".join(row for row in rows if row) + "\n"
