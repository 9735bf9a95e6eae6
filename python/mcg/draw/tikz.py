"""A scene as TikZ, for papers: letters in the fonts of the paper, a point of the scene is 0.75pt."""
from __future__ import annotations

from typing import Dict, List

from .scene import Disc, End, Group, Path, Pen, Polygon, Rectangle, Runs, Scene, Text

_SPECIAL = {
    "\\": r"\textbackslash{}",
    "~": r"\textasciitilde{}",
    "^": r"\textasciicircum{}",
    "<": r"\textless{}",
    ">": r"\textgreater{}",
    "|": r"\textbar{}",
    **{c: "\\" + c for c in "{}$&#_%"},
}


def escaped(text: str) -> str:
    """Returns a text as TeX reads it."""
    return "".join(_SPECIAL.get(c, c) for c in text)


def _words(runs: Runs) -> str:
    found = ""
    for run in runs:
        text = escaped(run.text)
        if run.italic:
            found += rf"$\overline{{{text}}}$" if run.over else f"${text}$"
        elif run.sub:
            found += f"$_{{{text}}}$"
        else:
            found += rf"\textbf{{{text}}}" if run.bold else text
    return found


def _at(x: float, y: float) -> str:
    return f"({x:.2f},{-y:.2f})".replace("-0.00", "0.00")


class _Writer:
    """Writes marks, and gives each colour a name."""

    def __init__(self, scale: float) -> None:
        self.scale = scale
        self.colours: Dict[str, str] = {}

    def colour(self, colour: str) -> str:
        return self.colours.setdefault(colour, f"mcg{len(self.colours)}")

    def pen(self, pen: Pen) -> List[str]:
        found = [f"fill={self.colour(pen.fill)}"] if pen.fill else []
        if pen.stroke and pen.width:
            wide = f"line width={pen.width * self.scale:.2f}pt"
            found.append(f"draw={self.colour(pen.stroke)},{wide}")
            if pen.dash:
                parts = (
                    f"{('on', 'off')[k % 2]} {d * self.scale:.2f}pt" for k, d in enumerate(pen.dash)
                )
                found.append("dash pattern=" + " ".join(parts))
        return found

    def text(self, mark: Text) -> str:
        anchor = {"middle": "base", "start": "base west", "end": "base east"}[mark.anchor]
        size = f"{mark.size * self.scale:.1f}"
        font = rf"font=\fontsize{{{size}}}{{{size}}}\selectfont"
        look = f"anchor={anchor},inner sep=0,text={self.colour(mark.fill)},{font}"
        place = _at(mark.x, mark.y + 0.34 * mark.size)
        return rf"\node[{look}] at {place} {{{_words(mark.runs)}}};"

    def shape(self, mark: object) -> str:
        assert isinstance(mark, (Path, Disc, Polygon, Rectangle))
        how = self.pen(mark.pen)
        if isinstance(mark, Path):
            drawn = _path(mark)
        elif isinstance(mark, Disc):
            drawn = f"{_at(mark.x, mark.y)} circle[radius={mark.radius:.2f}]"
        elif isinstance(mark, Polygon):
            how.append("line join=round")
            drawn = " -- ".join(_at(*it) for it in mark.points) + " -- cycle"
        else:
            if mark.radius:
                how.append(f"rounded corners={mark.radius * self.scale:.2f}pt")
            corner = _at(mark.x + mark.wide, mark.y + mark.high)
            drawn = f"{_at(mark.x, mark.y)} rectangle {corner}"
        return f"\\path[{','.join(how)}] {drawn};"


def _path(mark: Path) -> str:
    found = ""
    for it in mark.steps:
        if it[0] == "M":
            found += (" " if found else "") + _at(it[1], it[2])
        elif it[0] == "L":
            found += f" -- {_at(it[1], it[2])}"
        elif it[0] == "C":
            found += f" .. controls {_at(*it[1:3])} and {_at(*it[3:5])} .. {_at(*it[5:7])}"
        else:
            found += " -- cycle"
    return found


def to_tikz(scene: Scene, scale: float = 0.75) -> str:
    """Returns the definitions of the colours and a `tikzpicture`; `scale` is in TeX's points for
    each point of the scene."""
    writer = _Writer(scale)
    rows = [
        writer.text(mark) if isinstance(mark, Text) else writer.shape(mark)
        for mark in scene.marks
        if not isinstance(mark, (Group, End))
    ]
    head = [
        f"\\definecolor{{{name}}}{{HTML}}{{{colour[1:].upper()}}}"
        for colour, name in writer.colours.items()
    ]
    begin = f"\\begin{{tikzpicture}}[x={scale}pt,y={scale}pt]"
    return "\n".join(head + [begin] + rows + ["\\end{tikzpicture}"]) + "\n"
