"""Perfect matchings, tight cut decompositions and ear decompositions of graphs.

The functions call the formally verified programs `mcg` and `mcg6`, found through the environment
variables `MCG` and `MCG6`, in the wheel, or on the PATH, and give their reports in your own labels:

    >>> import mcg
    >>> edges = [("a", "b"), ("a", "c"), ("a", "d"), ("b", "c"), ("b", "d"), ("c", "d")]
    >>> mcg.analyse(edges).kind
    'brick'
    >>> [leaf.kind for leaf in mcg.decompose(edges).leaves]
    ['brick']
    >>> [kind.bricks for kind in mcg.kinds(["C~", "IheA@GUAo"])]
    [1, 1]
    >>> print(mcg.decompose(edges))
    <Decomposition of 4 vertices: 1 brick, 0 braces>
    brick on 4 blocks: 'a', 'b', 'c', 'd'

A graph is a graph of NetworkX or of Sage, a pair (vertices, edges), an iterable of edges, or a
text in graph6 (see `Graph`), with at most 128 vertices and 2,048 edges.

One graph: `analyse`, `decompose`, `check`, `ears`, `check_ears`, `compare`, `script`, `replay`,
`matching`, `tight_cuts`.
Edges of matching covered graphs: `removable`, `b_invariant`, `removable_doubletons`, `thin`.
Cuts and new graphs: `is_tight`, `contract`, `retract`, `bisubdivide`, `splice`, `is_petersen`.
Lists of graphs, streamed: `kinds`, `leaves`, `elementary`, `select`, `matchings`, `cuts`, `ears_of`;
and what is known of each graph of a list in an SQLite file: `census`.
Each answer has a short `repr`, a text for `print`, and `to_dict` with `from_dict` (see `mcg.dicts`);
it can be pickled.
Pictures: the module `draw`, and the method `draw` of `Decomposition`, `Ears` and `Comparison`.
Texts of the formats of Mcg: the methods `from_text` and `to_text` of `Graph`, `Decomposition`,
`Picks`, `Ears` and `Moves`, and `from_text` of `Analysis`, `TreeCheck`, `EarsCheck`, `Comparison`
and `Replay`.

Vertices and edges are in your own labels everywhere. Where something has a number, it counts from
1, as in the reports and files: vertex k is `Graph(G).vertices[k - 1]`, edge k is
`Graph(G).edges[k - 1]`, and so are nodes, steps and moves. Places in a list of Python count from 0:
`index`, and the leaves in `Comparison.pairs`. The labels of a graph in graph6 are 0, 1, ..

What is decided about graphs is decided by the programs, and each docstring says by which command.
The package itself only does what needs no theorem: it counts degrees, contracts and splices, and
recognises the Petersen graph. The one exception is `mcg.verify`, a second opinion that checks
reports without the programs.
"""
from . import draw
from .analysis import Analysis, analyse
from .bricks import b_invariant, removable, removable_doubletons, thin
from .censuses import Census, census
from .comparisons import Comparison, compare, script
from .contractions import Contraction, Contractions, contract, retract
from .decompositions import Picks, Refusal, TreeCheck, check, decompose
from .ear_checks import EarsCheck, check_ears
from .ear_lists import Ear, Ears, ears
from .errors import (
    BadGraph,
    BadInput,
    BadText,
    Error,
    NotADerivation,
    NotCovered,
    OutOfMemory,
    ProgramFailed,
    ProgramMissing,
    TooLarge,
)
from .graphs import Graph
from .list_answers import Kind, ListComponent, ListLeaf
from .list_cuts import TightCut, cuts, tight_cuts
from .list_ears import ListEars, ears_of
from .list_matchings import Matching, matching, matchings
from .lists import elementary, kinds, leaves, select
from .moves import Moves, Rotate, Switch
from .petersen import is_petersen
from .properties import Order, Property
from .replays import Replay, replay
from .splices import bisubdivide, splice
from .tightness import Tightness, is_tight
from .trees import Cut, Decomposition, Leaf
from .version import __version__

from . import verify  # (last, as it is made of the rest)

__all__ = [
    "Analysis",
    "BadGraph",
    "BadInput",
    "BadText",
    "Census",
    "Comparison",
    "Contraction",
    "Contractions",
    "Cut",
    "Decomposition",
    "Ear",
    "Ears",
    "EarsCheck",
    "Error",
    "Graph",
    "Kind",
    "Leaf",
    "ListComponent",
    "ListEars",
    "ListLeaf",
    "Matching",
    "Moves",
    "NotADerivation",
    "NotCovered",
    "Order",
    "OutOfMemory",
    "Picks",
    "ProgramFailed",
    "ProgramMissing",
    "Property",
    "Refusal",
    "Replay",
    "Rotate",
    "Switch",
    "TightCut",
    "Tightness",
    "TooLarge",
    "TreeCheck",
    "__version__",
    "analyse",
    "b_invariant",
    "bisubdivide",
    "census",
    "check",
    "check_ears",
    "compare",
    "contract",
    "cuts",
    "decompose",
    "draw",
    "ears",
    "ears_of",
    "elementary",
    "is_petersen",
    "is_tight",
    "kinds",
    "leaves",
    "matching",
    "matchings",
    "removable",
    "removable_doubletons",
    "replay",
    "retract",
    "script",
    "select",
    "splice",
    "thin",
    "tight_cuts",
    "verify",
]
