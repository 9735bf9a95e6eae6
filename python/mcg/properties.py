"""The words that a caller chooses: orders of choice, and properties of graphs."""
from __future__ import annotations

import re
from typing import Any, Literal, Tuple, Union, cast

Order = Literal["first", "last", "balanced"]
ORDERS = ("first", "last", "balanced")

Property = Union[
    Literal["covered", "uncovered", "perfect", "brick", "brace", "bicritical", "composite"],
    Literal["bricks=0", "bricks=1", "bricks=2", "bricks=3", "bricks=4"],
    Literal["bricks=5", "bricks=6", "bricks=7", "bricks=8", "bricks=9"],
    Literal["braces=0", "braces=1", "braces=2", "braces=3", "braces=4"],
    Literal["braces=5", "braces=6", "braces=7", "braces=8", "braces=9"],
    Tuple[Literal["bricks", "braces"], int],
]
PROPERTIES = ("covered", "uncovered", "perfect", "brick", "brace", "bicritical", "composite")


def order_word(order: Any) -> Order:
    """Returns an order of choice as it was given. Raises `ValueError` for another value.

    >>> order_word("last")
    'last'
    """
    if isinstance(order, str) and order in ORDERS:
        return cast(Order, order)
    raise ValueError(f"order is {' or '.join(ORDERS)}, and not {order!r}")


def property_word(what: Any) -> str:
    """Returns a property as a word of `mcg6 select`. Raises `ValueError` for another value.

    >>> property_word("brick"), property_word(("bricks", 12))
    ('brick', 'bricks=12')
    """
    word = what
    if isinstance(what, tuple) and len(what) == 2:
        word = f"{what[0]}={what[1]}"
    if isinstance(word, str) and (
        word in PROPERTIES or re.fullmatch("(bricks|braces)=[0-9]{1,9}", word)
    ):
        return word
    allowed = f"{', '.join(PROPERTIES)}, bricks=K or braces=K with a number K"
    raise ValueError(f"what is {allowed}, and not {what!r}")
