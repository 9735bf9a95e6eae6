"""Labels in words, and sets of vertices that keep an order."""
from __future__ import annotations

from typing import Any, FrozenSet, Hashable, Iterable, Iterator, Tuple, TypeVar, cast

Label = Hashable
Member = TypeVar("Member", bound=Hashable, covariant=True)

# The most letters of a text in the `repr` of an answer.
MOST_SHOWN = 40


class VertexSet(FrozenSet[Member]):
    """A frozenset of vertices that lists its members in the order of the graph's vertices.

    It is equal to a frozenset with the same members, and has its hash; only the order is fixed, so
    that what is printed is the same in every run:

    >>> VertexSet("bca"), VertexSet("bca") == frozenset("abc")
    ({'b', 'c', 'a'}, True)
    """

    _listed: Tuple[Member, ...]

    def __new__(cls, labels: Iterable[Member] = ()) -> VertexSet[Member]:
        listed = tuple(dict.fromkeys(labels))
        made = super().__new__(cls, cast(Any, listed))
        made._listed = listed
        return made

    def __iter__(self) -> Iterator[Member]:
        return iter(self._listed)

    def __repr__(self) -> str:
        return shown(self)

    def __reduce__(self) -> Any:
        return VertexSet, (self._listed,)


def _place(label: Any) -> Tuple[int, Any, str]:
    """What sets without an order of their own are sorted by: numbers, and then all else by its text."""
    if isinstance(label, (int, float)):
        return 0, label, ""
    return 1, 0, shown(label)


def shown(label: Any) -> str:
    """Returns a label, or a set or tuple of labels, as text on one line, the same in every run.

    >>> shown(frozenset({"b", "a", 10, 9})), shown((frozenset("a"), None))
    ("{9, 10, 'a', 'b'}", "({'a'}, None)")
    """
    if isinstance(label, VertexSet):
        return "{" + ", ".join(map(shown, label)) + "}"
    if isinstance(label, (frozenset, set)):
        return "{" + ", ".join(map(shown, sorted(label, key=_place))) + "}"
    if type(label) is tuple:
        return "(" + ", ".join(map(shown, label)) + ("," if len(label) == 1 else "") + ")"
    return " ".join(repr(label).splitlines())


def brief(text: str) -> str:
    """Returns a text, with dots for its end if it is long.

    >>> brief("x" * 50)
    'xxxxxxxxxxxxxxxxxxxxxxxxxxxxxxxxxxxxx...'
    """
    return text if len(text) <= MOST_SHOWN else text[: MOST_SHOWN - 3] + "..."


def counted(number: int, one: str, many: str = "") -> str:
    """Returns a number with its noun.

    >>> counted(1, "leaf", "leaves"), counted(0, "brick")
    ('1 leaf', '0 bricks')
    """
    return f"{number} {one if number == 1 else many or one + 's'}"
