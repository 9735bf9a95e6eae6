"""Places for the vertices of a graph: several drawings, and the best of them. Needs NumPy and
NetworkX (for the planarity test)."""
from .choosing import place, upright

__all__ = ["place", "upright"]
