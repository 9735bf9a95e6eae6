"""Pictures of graphs, decompositions, ears and comparisons.

    picture = mcg.draw.draw(G, analysis=True)
    picture.save("graph.svg")

A notebook shows a picture by itself. `Decomposition.draw()`, `Ears.draw()` and `Comparison.draw()`
return pictures too, and `page(G)` a page of HTML. The package itself writes SVG, TikZ and DOT; PNG,
PDF and `ax=` need Matplotlib. Finding places needs NumPy and NetworkX, unless `pos=` gives them.
What is missing is named by an `ImportError`.
"""
from __future__ import annotations

from typing import TYPE_CHECKING, Any

from .picture import Picture

if TYPE_CHECKING:
    from .comparisons import draw_comparison
    from .cuts import draw_cut
    from .decompositions import draw_decomposition
    from .ears import draw_ears
    from .graphs import draw, to_dot, to_tikz
    from .pages import page

__all__ = [
    "Picture",
    "draw",
    "draw_comparison",
    "draw_cut",
    "draw_decomposition",
    "draw_ears",
    "page",
    "to_dot",
    "to_tikz",
]

# Where each function is; a module is imported when it is used, as some need other packages.
_PLACES = {
    "draw": "graphs",
    "to_dot": "graphs",
    "to_tikz": "graphs",
    "draw_decomposition": "decompositions",
    "draw_ears": "ears",
    "draw_comparison": "comparisons",
    "draw_cut": "cuts",
    "page": "pages",
}


def __getattr__(name: str) -> Any:
    if name not in _PLACES:
        raise AttributeError(f"module {__name__!r} has no attribute {name!r}")
    from .needs import laid_out

    return getattr(laid_out(_PLACES[name]), name)
