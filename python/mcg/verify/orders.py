"""Whether an order of choice, or some picks, gives a tree: which candidate each of its cuts is."""
from __future__ import annotations

from typing import TYPE_CHECKING, Sequence, Tuple, Union

from ..properties import Order, order_word
from .all_cuts import candidates, chosen
from .structure import need

if TYPE_CHECKING:
    from .trees import Node, Trees

Chosen = Union[Order, Sequence[int]]


def demand_order(trees: Trees, node: Node, order: Chosen) -> None:
    """Checks that an order of choice gives a tree that has no fault. The picks of a list are those of
    the cuts in preorder, and 0 when they have run out. Raises `Wrong`, and `ValueError` for another
    order."""
    picks: Tuple[int, ...] = () if isinstance(order, str) else tuple(order)
    word = order_word(order) if isinstance(order, str) else None
    for number, (place, shore) in enumerate(trees.cuts(node)):
        pick = picks[number] if number < len(picks) else 0
        due = chosen(place, trees.edges(place), pick if word is None else word)
        what = f"pick {pick}" if word is None else f"the order {word}"
        need(shore == due, f"cut {number + 1} (in preorder) is not the one that {what} takes")


def demand_picks(trees: Trees, node: Node) -> None:
    """Checks that some picks give a tree that has no fault: each cut is one of the candidates. Raises
    `Wrong`."""
    for number, (place, shore) in enumerate(trees.cuts(node), 1):
        found = [it.shore for it in candidates(place.simple, trees.edges(place))]
        what = f"cut {number} (in preorder) is none of the {len(found)} candidates"
        need(place.inside(shore) in found, what)
