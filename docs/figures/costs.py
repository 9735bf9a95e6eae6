"""How the cost of each call grows: the table of docs/PERFORMANCE.md, which is in thousands, drawn in millions on logarithmic scales."""
import re

import matplotlib.pyplot as plt

from drawing import BLUE, GREEN, INK, ORANGE, PURPLE, ROOT, save

# The calls that are drawn, each with its colour, its mark and its line.
CALLS = {
    "analyse": (BLUE, "o", "-"),
    "decompose first": (ORANGE, "s", "--"),
    "compare": (PURPLE, "^", "-."),
    "ears": (GREEN, "D", (0, (1, 1))),
    "LEMON": (INK, "x", (0, (6, 2))),
}
# What the legend says of a call, where it is not its name: the program on LEMON does the work of `analyse` alone.
NAMES = {"LEMON": "LEMON (analyse only)"}


def table():
    """The millions of instructions by family and call, of the table whose header begins with Family."""
    with open(f"{ROOT}/docs/PERFORMANCE.md") as file:
        text = file.read()
    header, rows = re.search(r"^\| Family \| Call \|(.*?)\| Exponent \|\n\|[-|]*\|\n((?:\|.*\n)*)", text, re.M).groups()
    sizes = [int(it) for it in re.findall(r"n = (\d+)", header)]
    found = {}
    for row in rows.splitlines():
        family, call, *cells = (it.strip() for it in row.strip("|").split("|"))
        points = [(n, float(cell.replace(",", "")) / 1000) for n, cell in zip(sizes, cells) if cell]
        found.setdefault(family, {})[call] = points
    return sizes, found


def draw_family(axes, family, calls, sizes):
    for call, (colour, mark, line) in CALLS.items():
        if calls.get(call):
            axes.plot(*zip(*calls[call]), color=colour, marker=mark, linestyle=line, linewidth=1.4, markersize=4.5, label=NAMES.get(call, call))
    axes.set_xscale("log", base=2)
    axes.set_yscale("log")
    axes.set_yticks([0.1, 1, 10, 100], ["0.1", "1", "10", "100"])
    axes.set_xticks(sizes, [str(n) for n in sizes])
    axes.set_xlim(sizes[0] * 0.85, sizes[-1] * 1.18)
    axes.set_title(family, fontsize=9.5)
    axes.grid(True, which="major", color="#dddddd", linewidth=0.6)
    axes.tick_params(which="minor", left=False)
    axes.set_axisbelow(True)


def make():
    sizes, families = table()
    figure, grid = plt.subplots(2, 3, figsize=(9.4, 5.6), sharex=True, sharey=True)
    for axes, (family, calls) in zip(grid.flat, families.items()):
        draw_family(axes, family, calls, sizes)
    for axes in grid[:, 0]:
        axes.set_ylabel("millions of instructions")
    for axes in (*grid[1, :2], grid[0, 2]):
        axes.set_xlabel("vertices")
        axes.tick_params(labelbottom=True)
    handles = {label: handle for axes in grid.flat for handle, label in zip(*axes.get_legend_handles_labels())}
    last = grid.flat[len(families)]
    last.axis("off")
    last.legend(handles.values(), handles.keys(), loc="center", frameon=False, fontsize=9.5, handlelength=3.6)
    figure.tight_layout()
    save(figure, "costs", "How the cost of each call grows with the graph",
         f"Millions of instructions of {', '.join(handles)} against the number of vertices on logarithmic scales, one panel for each family of graphs: "
         f"{', '.join(families)}. The table in PERFORMANCE has the numbers and the exponents.")
