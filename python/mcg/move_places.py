"""Why a move has no result, and which tree it makes, for the words on a move that fails.

The report has the number of the move; the moves are made by `mcg.verify`, as FORMATS has them.
"""
from __future__ import annotations

from typing import Optional, Sequence, Tuple

from .graphs import Graph
from .moves import Move, Rotate, Switch
from .tree_nodes import Cut, Leaf, Tree
from .verify.moves import moved
from .verify.structure import Given
from .verify.trees import Node, node_of


def stuck_or_made(
    graph: Graph, tree: Tree, moves: Sequence[Move]
) -> Tuple[Optional[str], Optional[Tree]]:
    """Returns a word on why the last of these moves has no result, and else the tree that it makes;
    (None, None) if there is no move, or an earlier one fails. Takes time in the number of the
    moves times that of the nodes."""
    given = Given(graph)
    node = node_of(given, tree)
    for move in moves[:-1]:
        node = moved(given, node, move)
    if not moves:
        return None, tree
    made = moved(given, node, moves[-1])
    if made is None:
        return _why(given, node, moves[-1]), None
    return None, _tree(given, made)


def _tree(given: Given, node: Node) -> Tree:
    if node is None:
        return Leaf()
    shore, kept, merged = node
    return Cut(given.labels(shore), _tree(given, kept), _tree(given, merged))


def _at(node: Node, path: str) -> Node:
    """The node at the end of a path; None for a leaf, and where the path leaves the tree."""
    for letter in path:
        if node is None:
            return None
        _shore, kept, merged = node
        node = kept if letter == "k" else merged
    return node


def _why(given: Given, node: Node, move: Move) -> Optional[str]:
    """Why a move has no result on a tree."""
    if isinstance(move, Switch):
        return "no cut" if _at(node, move.path) is None else "not parts"
    is_cut = bool(move.path) and _at(node, move.path) is not None
    return "crossing" if is_cut and isinstance(move, Rotate) else "no cut"
