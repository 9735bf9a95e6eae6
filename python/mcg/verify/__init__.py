"""A second opinion on the reports of Mcg, for those who have the programs and not the proofs.

This is the one place where the package decides something about graphs. It asks none of the
programs and shares no code with them: matchings are found by Edmonds' search for alternating
paths, a cut is tight if no perfect matching has two edges in it, a brick is bicritical and
3-connected (Edmonds, Lovász and Pulleyblank 1982), a brace stays perfectly matchable without any
two vertices of each side (Lovász 1987), an ear decomposition is checked stage by stage, and a
comparison map by map. It is tested and not verified. A graph of 128 vertices takes some seconds.

Each function takes the graph and a result of the function of `mcg` with the same name, and raises
`Wrong` if the definitions contradict it:

    >>> import mcg, mcg.verify
    >>> edges = [("a", "b"), ("b", "c"), ("c", "d"), ("d", "a")]
    >>> mcg.verify.decompose(edges, mcg.decompose(edges))

What is free is not compared: other valid ears, moves, maps and witnesses pass. `decompose` takes the
order of choice, and without it any tight cut decomposition passes. `python -m mcg.verify [--order
ORDER] GRAPH REPORT [FILES]` checks a report in a file: that of `decompose` must be the one that the
order gives, or, where none is said, one that some picks give.

Reports of `mcg6` are judged against their lists, line by line: `list_report` and `Judged`, and
`python -m mcg.verify --list LIST REPORT COMMAND..`. All candidates for a cut are found by their
definition.
"""
from .files import report
from .list_answers import cuts, ears_of, elementary, kinds, leaves, matchings, select
from .lists import Judged, LineFault, list_report
from .moves import compare, replay
from .stages import check_ears, ears
from .structure import Wrong, analyse
from .trees import check, decompose

__all__ = [
    "Judged",
    "LineFault",
    "Wrong",
    "analyse",
    "check",
    "check_ears",
    "compare",
    "cuts",
    "decompose",
    "ears",
    "ears_of",
    "elementary",
    "kinds",
    "leaves",
    "list_report",
    "matchings",
    "replay",
    "report",
    "select",
]
