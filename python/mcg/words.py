"""What is wrong with a graph, a tree, a list of ears or a move, in words and in labels.

The words are those that the programs write to standard error.
"""
from __future__ import annotations

from typing import TYPE_CHECKING, Any, Iterable, Optional

from .labels import shown

if TYPE_CHECKING:
    from .decompositions import Refusal
    from .ear_checks import EarsCheck
    from .replays import Replay

# Why a node of a tree is refused, and what would be right.
NODE_FAULTS = {
    1: "its shore is not a union of blocks, as it splits a set that a cut above it contracted",
    2: "its shore has an even number of blocks, so its cut is not tight",
    3: "one of its two shores has fewer than three blocks, so its cut is trivial",
    4: "its cut is not tight",
    5: "it is a leaf with a nontrivial tight cut",
}
NODE_ADVICE = {
    1: "write whole blocks",
    2: "take another cut",
    3: "make it a leaf, or take another cut",
    4: "take another cut",
    5: "cut further, along this cut for instance",
}

# Why a step of an ear decomposition is refused, and what would be right.
EAR_FAULTS = {
    1: "the ear is not a path: an edge does not meet the vertex reached, or a vertex is repeated",
    2: "the ear has an even number of edges",
    3: "the ends of the ear are not two different vertices of the subgraph before the step",
    4: "an inner vertex of the ear is in the subgraph before the step, or on the first ear of the step",
    5: "an edge of the ear is in the subgraph before the step, or on the first ear of the step",
    6: "once the step is added, edge {edge} is in no perfect matching of the subgraph",
    7: "the list ends here, but edge {edge} has not been added",
}
EAR_ADVICE = {
    1: "write the first vertex of the ear, then its edges in order",
    2: "take a path of odd length",
    3: "begin and end at two such vertices",
    4: "end the ear there if the vertex is in the subgraph; otherwise take another path",
    5: "leave it out",
    6: "take other ears, or add a second ear if the step has only one",
    7: "add more ears",
}

# Why a move has no result.
STUCK = {
    "no cut": "its path does not lead to a cut that it can change (rotate needs a cut below the root)",
    "crossing": "the shore of its cut crosses that of the cut above (rotate another cut)",
    "not parts": "its sets must be nonempty proper subsets of the shore and of its complement",
}


def listed(items: Iterable[Any]) -> str:
    """Returns labels or edges with commas between them.

    >>> listed([("a", "b"), "c"])
    "('a', 'b'), 'c'"
    """
    return ", ".join(map(shown, items))


def uncovered_words(reason: Optional[str], witness: Any) -> str:
    """Returns why a graph is not matching covered.

    >>> uncovered_words("edge", ("b", "c"))
    "the graph is not matching covered: edge ('b', 'c') is in no perfect matching (leave out such edges: analyse lists the others as allowed)"
    """
    why = f"{reason} {shown(witness)}"
    if reason == "order":
        why = "it has fewer than two vertices"
    elif reason == "parts":
        ends = "vertex {} to vertex {}".format(*map(shown, witness))
        why = f"it is disconnected, as no path leads from {ends} (take one component)"
    elif reason == "berge":
        why = f"it has no perfect matching: deleting the vertices {shown(witness)} leaves more odd components than vertices deleted"
        if not witness:
            why = "it has no perfect matching, as the number of its vertices is odd"
    elif reason == "edge":
        advice = "leave out such edges: analyse lists the others as allowed"
        why = f"edge {shown(witness)} is in no perfect matching ({advice})"
    return f"the graph is not matching covered: {why}"


def node_fault(why: int) -> str:
    """Returns what is wrong with a node, by the number of the reason.

    >>> node_fault(4)
    'its cut is not tight'
    """
    return NODE_FAULTS.get(why, f"reason {why}")


def node_words(refusal: Refusal, at: str = "at node", advice: str = "") -> str:
    """Returns which node of a tree is refused, why, and what would be right."""
    place = "in preorder"
    if refusal.path is not None:
        place += f"; path {refusal.path or '.'}"
    if refusal.shore is not None:
        place += f", shore {shown(refusal.shore)}"
    fault = node_fault(refusal.why)
    if refusal.matching is not None:
        fault += (
            f", as it contains at least three edges of the perfect matching {listed(refusal.matching)}"
        )
    if refusal.cut is not None:
        fault = (
            f"it is a leaf, but the cut of the shore {shown(refusal.cut)} is nontrivial and tight there"
        )
    return f"{at} {refusal.node} ({place}): {fault} ({advice or NODE_ADVICE.get(refusal.why, '')})"


def ears_words(found: EarsCheck) -> str:
    """Returns which step of a list of ears is refused, why, and what would be right."""
    place = f"at step {found.step}" if found.step else "before its first step"
    if found.ear is not None:
        place += f", in the {('first', 'second')[found.ear - 1]} ear"
    if found.at is not None:
        place += f", at edge {shown(found.at)}"
    fault = EAR_FAULTS.get(found.why or 0, f"reason {found.why}").format(edge=shown(found.edge))
    return (
        f"the list is not an ear decomposition; {place}: {fault} ({EAR_ADVICE.get(found.why or 0, '')})"
    )


def replay_words(found: Replay) -> str:
    """Returns why a move cannot be made, and what would be right."""
    if found.move and found.refusal is None:
        why = STUCK.get(found.stuck or "", "it cannot be made there")
        return f"move {found.move} has no result: {why}"
    if found.move and found.refusal is not None:
        head = f"move {found.move} makes a tree that is not a tight cut decomposition"
        return f"{head}; {node_words(found.refusal, 'at its node', 'take another move')}"
    if found.refusal is not None:
        return f"the tree is not a tight cut decomposition; {found.refusal}"
    return uncovered_words(found.reason, found.witness)
