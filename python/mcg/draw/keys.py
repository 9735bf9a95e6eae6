"""The key below a picture: what its fills, shapes and lines mean."""
from __future__ import annotations

from typing import List, NamedTuple, Union

from . import style
from .scene import Pen, Run, Scene, Words, words_width

LINES = {
    "edge": Pen(),
    "pale": Pen(stroke=style.PALE, width=style.EDGE_PALE),
    "thick": Pen(width=style.EDGE_MATCHED),
    "cut": Pen(stroke=style.BLUE, width=style.CUT, dash=style.DASH),
}
SIZE = 10.0


class Entry(NamedTuple):
    """One entry: the mark of a vertex, or the name of a line, or a text in bold; and words."""

    mark: Union[style.Mark, str]
    words: Words

    @property
    def lead(self) -> float:
        """How wide the mark is."""
        if isinstance(self.mark, str) and self.mark not in LINES:
            return words_width(self.mark, SIZE) + 6
        return 20.0

    @property
    def wide(self) -> float:
        """How wide the entry is."""
        return self.lead + words_width(self.words, SIZE)


def add_key(scene: Scene, key: List[Entry], least: float = 220.0) -> None:
    """Adds a key in rows below what is there, at least that wide."""
    if not key:
        return
    left, top, right, bottom = scene.box
    y, middle = bottom + 20, (left + right) / 2
    for row in _rows(key, max(right - left, least)):
        x = middle - (sum(it.wide for it in row) + 18 * (len(row) - 1)) / 2
        for entry in row:
            _add(scene, entry, x, y)
            x += entry.wide + 18
        y += 17


def _rows(key: List[Entry], most: float) -> List[List[Entry]]:
    rows: List[List[Entry]] = [[]]
    used = 0.0
    for entry in key:
        if rows[-1] and used + entry.wide > most:
            rows.append([])
            used = 0.0
        rows[-1].append(entry)
        used += entry.wide + 18
    return rows


def _add(scene: Scene, entry: Entry, x: float, y: float) -> None:
    mark = entry.mark
    if isinstance(mark, style.Mark):
        scene.shape(mark.shape, (x + 7, y), 5.2, Pen(mark.fill, style.INK, style.OUTLINE))
    elif mark in LINES:
        scene.line((x - 3, y), (x + 15, y), LINES[mark])
    else:
        scene.text(x, y, [Run(mark, bold=True)], SIZE, anchor="start")
    scene.text(x + entry.lead, y, entry.words, SIZE, anchor="start")
