"""Pictures: what the functions of `mcg.draw` return."""
from __future__ import annotations

import os
from typing import Any, Optional, Union

from . import dot, needs, svg, tikz
from .scene import Scene


class Picture:
    """A picture; a notebook shows it by itself.

    `scene` is the list of its marks, `title` what it is called, `words` what it shows, for those
    who do not see it.
    """

    def __init__(self, scene: Scene, title: str = "", words: str = "") -> None:
        self.scene, self.title, self.words = scene, title, words

    def to_svg(self) -> str:
        """Returns the picture as SVG, the same in every run; its text is text."""
        return svg.to_svg(self.scene, self.title, self.words)

    def to_tikz(self) -> str:
        """Returns the picture as a `tikzpicture`, for LaTeX with the package TikZ."""
        return tikz.to_tikz(self.scene)

    def to_dot(self) -> str:
        """Returns the vertices and edges with their places for Graphviz: `neato -n -Tpdf`."""
        return dot.to_dot(self.scene)

    def on(self, ax: Any) -> Picture:
        """Draws the picture on axes of Matplotlib, as large as they allow, and returns it. Raises
        `ImportError` without Matplotlib."""
        needs.on_axes().draw_on(self.scene, ax)
        return self

    def save(self, path: Union[str, "os.PathLike[str]"]) -> None:
        """Writes the picture into a file: SVG, TikZ or DOT by the endings .svg, .tex, .tikz, .dot
        and .gv, else what Matplotlib knows by the ending (.png, .pdf). Raises `ImportError`."""
        name = os.fspath(path)
        ending = os.path.splitext(name)[1].lower()
        ways = {".svg": self.to_svg, ".tex": self.to_tikz, ".tikz": self.to_tikz}
        ways.update({".dot": self.to_dot, ".gv": self.to_dot})
        if ending not in ways:
            needs.on_axes().written(self.scene, name, self.title)
            return
        with open(name, "w", encoding="utf-8") as file:
            file.write(ways[ending]())

    def _repr_svg_(self) -> str:
        return self.to_svg()

    def __repr__(self) -> str:
        size = (
            f"{self.scene.wide:.0f} by {self.scene.high:.0f} points"
            if self.scene.marks
            else "empty"
        )
        return f"<mcg.draw.Picture {self.title or 'without a title'}, {size}>"


def finished(scene: Scene, title: str, words: str = "", ax: Optional[Any] = None) -> Picture:
    """Returns the picture of a scene, drawn on the axes if there are some."""
    picture = Picture(scene, title, words)
    return picture if ax is None else picture.on(ax)
