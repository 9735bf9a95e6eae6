"""The crates as a map: layers of crates, with an arrow from each layer to one that it uses, unless a longer way says so already."""
import matplotlib.pyplot as plt
import networkx as nx
from matplotlib.patches import FancyBboxPatch

from drawing import INK, ROOT, TINTS, bare, save

# What is left out, and the layers: the groups of crates.txt that each has, its colour, its left and right end, and its row.
LEFT_OUT = {"Tests", "An example for users of the library"}
LAYERS = {
    "theorems": (["Theorems, as a mathematician states them"], "white", 0, 800, 0),
    "programs and lists": (["Lists", "Graph files as graph6", "Workbench"], TINTS[3], 0, 800, 1),
    "texts and reports": (["Texts", "Reports"], "#f4eeb4", 0, 470, 2),
    "words for a person": (["The tables of commands", "The words for a person"], TINTS[3], 505, 800, 2),
    "trees and ears": (["Trees and ears"], TINTS[2], 0, 470, 3),
    "refusals": (["Reasons for refusals, and kinds of files"], "#e6e6e6", 505, 638, 3),
    "the system": (["The outside"], "#e6e6e6", 660, 800, 3),
    "cuts": (["Cuts"], TINTS[1], 0, 470, 4),
    "definitions": (["Theory for the reader"], "white", 505, 612, 4),
    "matchings": (["Matchings"], TINTS[0], 0, 470, 5),
    "graphs": (["Graphs"], TINTS[0], 0, 470, 6),
    "sets, lists, lines": (["Words and sets", "Lines of texts, and their faults"], "#e6e6e6", 0, 800, 7),
}
# The way of each arrow: where it begins and ends, by x where it leads down, and by the layers' sides where it does not.
WAYS = {
    ("theorems", "programs and lists"): ("down", 400),
    ("programs and lists", "texts and reports"): ("down", 235),
    ("programs and lists", "words for a person"): ("down", 650),
    ("programs and lists", "definitions"): ("down and right", 487),
    ("texts and reports", "trees and ears"): ("down", 235),
    ("words for a person", "refusals"): ("down", 571),
    ("words for a person", "the system"): ("down", 730),
    ("trees and ears", "refusals"): ("right", None),
    ("trees and ears", "cuts"): ("down", 235),
    ("cuts", "matchings"): ("down", 235),
    ("definitions", "matchings"): ("down and left", 558),
    ("matchings", "graphs"): ("down", 235),
    ("graphs", "sets, lists, lines"): ("down", 235),
    ("refusals", "sets, lists, lines"): ("down", 625),
    ("the system", "sets, lists, lines"): ("down", 730),
}
CHIP, GAP, HEAD, BETWEEN = 17, 6, 15, 20  # the heights of a crate, between two, of a layer's name, and between layers


def crates():
    """The graph of the crates of crates.txt, an edge from each to what it uses, and the group above each."""
    map_, group = nx.DiGraph(), ""
    with open(f"{ROOT}/crates.txt") as file:
        lines = file.read().splitlines()
    for line in lines:
        if line.startswith("#"):
            group = line[1:].strip().rstrip(".")
        elif ":" in line and group not in LEFT_OUT:
            map_.add_node(line.split(":")[0].strip(), group=group)
    for line in lines:
        name, _, used = line.partition(":")
        map_.add_edges_from((name, low) for low in used.split() if name in map_ and low in map_)
    return map_


def arrows(map_):
    """The arrows between layers that no longer way implies; they must be those that have a way."""
    layer = {group: name for name, (groups, *_) in LAYERS.items() for group in groups}
    of = {name: layer[map_.nodes[name]["group"]] for name in map_}
    found = set(nx.transitive_reduction(nx.DiGraph({(of[a], of[b]) for a, b in map_.edges if of[a] != of[b]})).edges)
    if found != set(WAYS):
        raise SystemExit(f"crates.py: arrows without a way {sorted(found - set(WAYS))}, ways without an arrow {sorted(set(WAYS) - found)}")
    return found


def rows_of(names, wide):
    """The names in rows of that width, each with its left end and its width."""
    rows, x = [[]], GAP
    for name in names:
        length = 12 + 5.3 * len(name)
        if x + length + GAP > wide:
            rows.append([])
            x = GAP
        rows[-1].append((name, x, length))
        x += length + GAP
    return rows


def boxes(map_):
    """Each layer's left, right, upper and lower end, and the rows of its crates, those that use the others first."""
    first = {name: k for k, name in enumerate(nx.topological_sort(map_))}
    chips = {}
    for name, (groups, _colour, left, right, _row) in LAYERS.items():
        chips[name] = rows_of(sorted((it for it in map_ if map_.nodes[it]["group"] in groups), key=first.get), right - left)
    heights = [max(HEAD + len(chips[name]) * (CHIP + GAP) + 2 for name in LAYERS if LAYERS[name][4] == row) for row in range(1 + max(it[4] for it in LAYERS.values()))]
    found = {}
    for name, (_groups, _colour, left, right, row) in LAYERS.items():
        upper = -sum(heights[:row]) - BETWEEN * row
        found[name] = (left, right, upper, upper - heights[row], chips[name])
    return found


def draw_layer(axes, name, box):
    left, right, upper, lower, rows = box
    axes.add_patch(FancyBboxPatch((left, lower), right - left, upper - lower, boxstyle="round,pad=0,rounding_size=5", facecolor=LAYERS[name][1], edgecolor=INK, linewidth=0.9))
    axes.annotate(name, (left + GAP + 1, upper - 9), ha="left", va="center", fontsize=8.2, fontweight="bold")
    for k, row in enumerate(rows):
        y = upper - HEAD - k * (CHIP + GAP) - CHIP / 2
        for crate, x, length in row:
            axes.add_patch(FancyBboxPatch((left + x, y - CHIP / 2), length, CHIP, boxstyle="round,pad=0,rounding_size=3", facecolor="white", edgecolor="#777777", linewidth=0.6))
            axes.annotate(crate, (left + x + length / 2, y), ha="center", va="center_baseline", fontsize=7.4)


def draw_arrow(axes, way, x, begin, end):
    middle, line = (end[2] + end[3]) / 2, {"color": "#333333", "linewidth": 1.1, "solid_capstyle": "butt"}
    if way == "right":
        tail, head = (begin[1], middle), (end[0], middle)
    elif way == "down":
        tail, head = (x, begin[3]), (x, end[2])
    else:
        axes.plot([x, x], [begin[3], middle], **line)
        tail, head = (x, middle), (end[0] if way == "down and right" else end[1], middle)
    axes.annotate("", head, tail, arrowprops={"arrowstyle": "-|>", "shrinkA": 0, "shrinkB": 0, "mutation_scale": 9, **{key: line[key] for key in ("color", "linewidth")}})


def make():
    map_ = crates()
    found, drawn = arrows(map_), boxes(map_)
    wide, high = max(it[1] for it in drawn.values()), -min(it[3] for it in drawn.values())
    figure = plt.figure(figsize=((wide + 8) / 100, (high + 8) / 100))
    axes = figure.add_axes([0, 0, 1, 1])
    bare(axes)
    axes.set_xlim(-4, wide + 4)
    axes.set_ylim(-high - 4, 4)
    for a, b in sorted(found):
        draw_arrow(axes, *WAYS[a, b], drawn[a], drawn[b])
    for name, box in drawn.items():
        draw_layer(axes, name, box)
    save(figure, "crates", "The crates of Mcg",
         f"{len(map_)} crates in {len(LAYERS)} layers, with the theorems and the programs at the top and sets, lists and lines at the bottom. An arrow leads from "
         "each layer to those that it uses, unless a longer way says so already. ARCHITECTURE has a table of the crates, and crates.txt the whole list of what "
         "each one uses.")
