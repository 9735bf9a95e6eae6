"""Colours, widths, sizes and letters: every number of the look is here. Lengths are in points."""
from __future__ import annotations

import math
from typing import List, NamedTuple, Optional, Tuple

Point = Tuple[float, float]

INK = "#1c1c1c"  # lines, outlines, letters
QUIET = "#6a6a6a"  # captions, links of a tree
PALE = "#a6a6a6"  # edges that are in no perfect matching
GHOST = "#d4d4d4"  # edges that are still to come
GHOST_RIM = "#bdbdbd"  # vertices that are still to come
RULE = "#d5d5d5"  # thin lines between panels
PAPER = "#ffffff"
BLUE = "#0b5394"  # a shore, the first ear, what is new
RUST = "#c8500a"  # a second shore, the second ear, what moves
SAND = "#efe6d2"  # a contracted set
BRICK = "#f4f4f4"  # the ground of a brick
SHADE = "#eeeeee"  # the ground of a component
EXCHANGED = "#f6cfae"  # what a Switch exchanges


class Mark(NamedTuple):
    """How the vertices of a set are marked: their fill, the colour of their names, their shape."""

    fill: str = PAPER
    ink: str = INK
    shape: str = "disc"


PLAIN = Mark()
GALLAI = {
    "D": PLAIN,
    "A": Mark("#16324f", PAPER, "diamond"),
    "C": Mark("#f0b64c", INK, "hexagon"),
}
SIDES = (Mark(INK, PAPER), PLAIN)  # the two sides of a bipartite graph

_FILLS = [("#16324f", PAPER), ("#f0b64c", INK), ("#5b9bd5", INK), ("#d9e8b8", INK)]
_FILLS.append(("#a83a24", PAPER))
_SHAPES = ["disc", "hexagon", "diamond", "triangle", "pentagon"]

# Tints of matched leaves, each with its letter; they repeat after eight, the letters do not.
TINTS = ["#d3e3f4", "#f4d19b", "#e4f0dc", "#bcb9ec", "#fbf3b0", "#9ac7c4", "#c2c0b0", "#f4e6ef"]

EDGE, EDGE_FINE, EDGE_PALE, EDGE_NEW, EDGE_MATCHED = 1.1, 0.9, 0.7, 2.8, 3.4
OUTLINE, OUTLINE_FINE, FRAME, LINK = 1.1, 0.9, 0.9, 0.9
CUT, DASH, SECOND_DASH = 1.5, (5.0, 3.0), (7.0, 2.5, 1.5, 2.5)
SECOND_EAR = (5.5, 2.6)
ARC_GAP = 7.0  # between neighbours among parallel edges, at their middle
MARGIN = 10.0  # round every picture
WIDEST = 560.0  # of a picture of one graph

SANS = "Helvetica, Arial, 'Liberation Sans', 'Nimbus Sans', sans-serif"
SERIF = "'Times New Roman', Times, 'Liberation Serif', 'Nimbus Roman', serif"


def class_mark(k: int) -> Mark:
    """Returns the mark of the k-th canonical class with two vertices or more, from 0.

    The fills differ in grey too. After five they start again with the shapes moved on by one, so
    there are 25 marks.
    """
    return Mark(*_FILLS[k % 5], _SHAPES[(k + k // 5) % 5])


def tint(k: int) -> str:
    """Returns the tint of the k-th leaf, from 0."""
    return TINTS[k % len(TINTS)]


def letter(k: int) -> str:
    """Returns the letter of the k-th leaf, from 0: A, B, .. Z, AA, AB, .."""
    text = chr(ord("A") + k % 26)
    return text if k < 26 else letter(k // 26 - 1) + text


class Sizes(NamedTuple):
    """The radius of a vertex with its name inside, the size of its letters, a mean edge."""

    radius: float
    letters: float
    length: float


_SIZES = [
    (8, Sizes(9.0, 10.5, 66)),
    (14, Sizes(8.6, 10.0, 58)),
    (24, Sizes(8.0, 9.0, 50)),
    (40, Sizes(7.0, 8.0, 42)),
    (64, Sizes(6.4, 7.2, 36)),
]


def sizes(order: int) -> Sizes:
    """Returns the sizes for a graph with that many vertices."""
    return next((it for most, it in _SIZES if order <= most), Sizes(3.2, 0.0, 26))


def dot(order: int, is_marked: bool = False) -> float:
    """Returns the radius of a vertex whose name is beside it, a little more if its fill tells
    something."""
    radius = 4.4 if order <= 14 else 3.8 if order <= 32 else 3.2
    return radius + (0.9 if is_marked else 0.0)


# Widths of letters of Helvetica and Arial in thousandths of their size. Liberation Sans and Nimbus
# Sans have the same, so that text can be placed without the font.
_WIDTHS = {
    222: "ijl|'",
    278: ".,:;!/\\ ft[]()I",
    333: "r-",
    500: "cksvxyzJ",
    584: "+=<>~",
    611: "FTZ",
    667: "ABEKPSVXY&",
    722: "CDHNRUw",
    778: "GOQ",
    833: "mM",
    889: "%",
    944: "W",
    1015: "@",
}
_WIDTH_OF = {letter: wide for wide, letters in _WIDTHS.items() for letter in letters}


def width(text: str, size: float) -> float:
    """Returns how wide a text is."""
    return sum(_WIDTH_OF.get(c) or (556 if ord(c) < 0x2E80 else 1000) for c in text) * size / 1000


_POLYGONS = {
    "diamond": (4, 90, 1.27),
    "hexagon": (6, 0, 1.12),
    "pentagon": (5, 90, 1.18),
    "triangle": (3, 90, 1.5),
    "square": (4, 45, 0.92 * math.sqrt(2)),
}


def corners(shape: str, x: float, y: float, radius: float) -> Optional[List[Point]]:
    """Returns the corners of a mark with about the area of that disc; None for a disc."""
    if shape == "disc":
        return None
    count, start, size = _POLYGONS[shape]
    lift = 0.18 * radius if shape == "triangle" else 0.0
    turns = [math.radians(start + 360 * k / count) for k in range(count)]
    reach = size * radius
    return [(x + reach * math.cos(t), y - reach * math.sin(t) + lift) for t in turns]


def grey(colour: str) -> int:
    """Returns what is left of a colour in greyscale, from 0 to 255, by the weights of Rec. 601."""
    red, green, blue = (int(colour[k : k + 2], 16) for k in (1, 3, 5))
    return round(0.299 * red + 0.587 * green + 0.114 * blue)
