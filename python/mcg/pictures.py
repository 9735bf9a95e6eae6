"""What the classes that can be drawn share. The pictures themselves are in `mcg.draw`."""
from __future__ import annotations

from typing import TYPE_CHECKING, Any, Dict, Optional

if TYPE_CHECKING:
    from .draw import Picture


class Drawable:
    """A class whose objects have a picture; a notebook shows it by itself, if NumPy and NetworkX
    are there, which find the places."""

    def draw(self, **options: Any) -> Picture:
        """Returns the picture."""
        raise NotImplementedError

    def to_tikz(self, **options: Any) -> str:
        """Returns the picture as a `tikzpicture` for LaTeX; the options are those of `draw`. Without
        NumPy and NetworkX, which find places, trees are in outline, and ears are on a circle."""
        try:
            return self.draw(**options).to_tikz()
        except ImportError:
            return self._bare(options).to_tikz()

    def _bare(self, options: Dict[str, Any]) -> Picture:
        """The picture that needs no layout. Raises `ImportError` if an option needs something."""
        return self.draw(**{**options, "graphs": False})

    def _repr_svg_(self) -> Optional[str]:
        try:
            return self.draw().to_svg()
        except ImportError:
            return None
