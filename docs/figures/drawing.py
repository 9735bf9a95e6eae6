"""What the two figures without graphs share: the look, the colours and the way to save."""
import os
import re

import matplotlib

matplotlib.use("svg")
matplotlib.rcParams.update({
    "svg.hashsalt": "mcg",  # the same names of marks in each run
    "svg.fonttype": "none",  # text stays text
    "font.family": ["Liberation Sans", "DejaVu Sans"],
    "font.size": 9,
    "figure.facecolor": "white",  # a card of its own, also on a dark page
})

HERE = os.path.dirname(os.path.realpath(__file__))
ROOT = os.path.dirname(os.path.dirname(HERE))
INK = "#1a1a1a"
# The palette of Okabe and Ito: the hues differ to every eye, and the greys differ in print.
BLUE, ORANGE, GREEN, PURPLE = "#0072b2", "#d55e00", "#009e73", "#882255"
TINTS = ["#cfe5f5", "#fbd9bf", "#c5ecdd", "#ecd3e4"]
# Fonts of the same widths, so that the text fits where Liberation Sans is missing.
FONTS = "Helvetica, Arial, 'Liberation Sans', 'Nimbus Sans', sans-serif"


def bare(axes):
    """Axes without a frame, with one scale for both."""
    axes.set_aspect("equal")
    axes.axis("off")


def save(figure, name, title, text):
    """Writes NAME.svg with a title and a text for those who do not see it: the same bytes in each run."""
    path = f"{HERE}/{name}.svg"
    figure.savefig(path, metadata={"Date": None, "Creator": None})
    with open(path) as file:
        svg = file.read()
    svg = re.sub(r"<!DOCTYPE[^>]*>\n", "", svg)
    svg = re.sub(r"(<svg [^>]*)>", rf'\1 role="img" aria-labelledby="title text">\n <title id="title">{title}</title>\n <desc id="text">{text}</desc>', svg, count=1)
    svg = re.sub(r" <metadata>.*?</metadata>\n", "", svg, flags=re.S)
    svg = svg.replace("'Liberation Sans', 'DejaVu Sans'", FONTS).replace("px 'Liberation Sans'", f"px {FONTS}")
    svg = "\n".join(line.rstrip() for line in svg.splitlines()) + "\n"
    with open(path, "w") as file:
        file.write(svg)
    print(f"docs/figures/{name}.svg")
