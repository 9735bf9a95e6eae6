"""The figures of graphs in the documents. Each is one call of `mcg.draw`, which can be repeated in Python at the top of a clone."""
import os
import sys

HERE = os.path.dirname(os.path.realpath(__file__))
ROOT = os.path.dirname(os.path.dirname(HERE))
sys.path.insert(0, f"{ROOT}/python")
os.environ.setdefault("MCG", f"{ROOT}/crates/mcg_front/out/mcg_front")

import mcg  # noqa: E402

# The chain as four squares in a row: a plane drawing would have to nest one of them in a triangle.
CHAIN = {1: (0, 1), 2: (0, -1), 3: (1.5, 1), 4: (1.5, -1), 5: (2.3, 0), 6: (3.3, 0), 7: (4.1, 1), 8: (4.1, -1),
         9: (5.6, 1), 10: (5.6, -1), 11: (7.1, 1), 12: (7.1, -1)}


def example(name):
    """A graph of the folder of examples."""
    with open(f"{ROOT}/examples/{name}.mcg") as file:
        return mcg.Graph.from_text(file.read())


def tight_cuts():
    G = example("two_k4")
    first, last = mcg.decompose(G, "first"), mcg.decompose(G, "last")
    picture = mcg.draw.draw_cut(G, first.tree.shore, [last.tree.shore])
    picture.title = "Two crossing tight cuts and the contractions at one of them"
    picture.words = ("Two copies of K4 sharing the edge 12. A dashed line separates the shore X = {1, 3, 4} from {2, 5, 6}, a dash-dotted one the "
                     "shore Y = {2, 3, 4}; the two cross at the edge 12. Next to it are the two contractions at X: the other side becomes a square "
                     "vertex in the first and X in the second, and both are K4 with one triple edge.")
    return picture


def derivations():
    G = example("chain")
    first = mcg.decompose(G)
    moves = mcg.Moves([mcg.Switch("", frozenset({3}), frozenset({4})), mcg.Rotate("mm")])
    second = mcg.replay(G, first, moves).result
    picture = mcg.compare(G, first, second).draw(pos=CHAIN)
    picture.title = "Two tight cut decompositions of one graph, and the moves from one to the other"
    picture.words = ("Two trees of the same graph, a chain of K4, the prism, K4 and K4, in which neighbours share an edge. Each node shows the graph "
                     "there, with its shore dashed and contracted sets as squares; leaves with the same letter and colour are isomorphic. Below are three "
                     "trees in outline and two arrows. A Switch makes X4 = {1, 2, 4} of X1 = {1, 2, 3}: 3 leaves the shore and 4 joins it. A Rotate brings X3 "
                     "above X2.")
    return picture


def ears():
    G = example("two_k4")
    picture = mcg.ears(G).draw(G, columns=5, numbers=True)
    picture.title = "An ear decomposition, one step a panel"
    picture.words = ("An ear decomposition of two copies of K4 sharing the edge 12: the edge 1 2 at the start, the single ears 1 3 4 2 and 1 5 6 2, then the "
                     "double ears 1 4 with 2 3 and 1 6 with 2 5. The new edges of a step are thick and have their numbers, the second ear of a double ear is "
                     "dashed, and what is still to come is pale.")
    return picture


def make(name):
    """Writes one of the figures."""
    globals()[name]().save(f"{HERE}/{name}.svg")
    print(f"docs/figures/{name}.svg")
