"""What pictures need beyond the package itself, and how a picture says that it is missing."""
from __future__ import annotations

import importlib
from types import ModuleType

_LAYOUT = (
    "a layout needs NumPy and NetworkX (Debian: python3-numpy, python3-networkx); with pos=, a "
    "dict from labels to places, a graph and its ears are drawn without them"
)
_AXES = "drawing on axes and into PNG and PDF files needs Matplotlib (Debian: python3-matplotlib)"


def _module(name: str, words: str) -> ModuleType:
    try:
        return importlib.import_module(name, __package__)
    except ImportError as why:
        raise ImportError(f"{words}: {why}") from why


def laid_out(name: str) -> ModuleType:
    """Returns a module of this package that works with layouts. Raises `ImportError`."""
    return _module(f".{name}", _LAYOUT)


def on_axes() -> ModuleType:
    """Returns the module that draws on the axes of Matplotlib. Raises `ImportError`."""
    return _module(".on_axes", _AXES)
