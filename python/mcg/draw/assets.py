"""The files that a page is made with: its style sheet and its script."""
from __future__ import annotations

from importlib.resources import files


def read(name: str) -> str:
    """Returns the text of `page.css` or `page.js`, also out of a wheel."""
    return files(__package__).joinpath(name).read_text("utf-8")
