"""Lists below a picture: what the names of sets and the short names of vertices stand for."""
from __future__ import annotations

from typing import List, Sequence

from . import style
from .names import Key
from .nodes import NamedSet
from .scene import Run, Scene, words_width

_SETS = 10.5  # the size of the letters


def add_sets(scene: Scene, sets: Sequence[NamedSet], short: Sequence[str]) -> None:
    """Lists the sets that names stand for in rows below; a long set is broken into lines."""
    if not sets:
        return
    left, right, y = scene.box[0] + 4, scene.box[2], scene.box[3] + 24
    most = max(right, left + 200)
    x = left
    for named in sets:
        lines = _broken(named, short, most - left)
        wide = words_width(lines[0], _SETS)
        if x > left and (x + wide > right or len(lines) > 1):
            x, y = left, y + 17
        for k, line in enumerate(lines):
            if k:
                y += 15
            scene.text(x + (14 if k else 0), y, line, _SETS, anchor="start")
        x = x + wide + 24 if len(lines) == 1 else right + 1


def _broken(named: NamedSet, short: Sequence[str], most: float) -> List[List[Run]]:
    """The lines of a set in words, none longer than `most` if its names are not."""
    items = [short[v] for v in sorted(named.vertices)]
    lines, text = [], " = {"
    head = list(named.name)
    for k, item in enumerate(items):
        piece = item + (", " if k + 1 < len(items) else "}")
        if k and words_width([*head, Run(text + piece)], _SETS) > most - 14:
            lines.append([*head, Run(text)])
            head, text = [], ""
        text += piece
    return lines + [[*head, Run(text)]]


def add_names(scene: Scene, key: Key) -> None:
    """Lists what short names stand for in columns below."""
    if not key:
        return
    left, right, y = scene.box[0] + 4, scene.box[2], scene.box[3] + 22
    lead = max(style.width(short, _SETS) for short, _ in key) + 8
    wide = lead + max(style.width(name, _SETS) for _, name in key) + 22
    columns = max(1, int((right - left) // wide))
    rows = -(-len(key) // columns)
    for k, (short, name) in enumerate(key):
        x, row = left + (k // rows) * wide, y + (k % rows) * 15
        scene.text(x, row, [Run(short, bold=True)], _SETS, anchor="start")
        scene.text(x + lead, row, name, _SETS, anchor="start")
