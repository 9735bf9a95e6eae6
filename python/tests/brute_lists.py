"""The lines that `mcg6 matching`, `cuts` and `ears` may write of small graphs, found by brute force from docs/FORMATS.md.

As a program, `brute_lists.py WORD [skip]` stands for mcg6: it answers these three words itself, and `mcg6`, named by the variable REAL_MCG6,
answers all others.
"""
import os
import sys
from importlib.machinery import SourceFileLoader
from importlib.util import module_from_spec, spec_from_loader
from itertools import combinations

from support import ROOT, Brute, mcg


def brute6(text):
    """The graph of a text in graph6, its vertices counted from 1."""
    order, edges = mcg.graph6.decode(text)
    return Brute(range(1, order + 1), edges)


def edges_of(brute):
    """The edges (a, b) with a < b, in the order of graph6."""
    return sorted((tuple(sorted(edge)) for edge in brute.edges), key=lambda edge: edge[::-1])


def maximum_matching(brute, draw=None):
    """The edges of a maximum matching, sorted: vertex by vertex, each is matched if the rest then still has a largest matching. With
    `draw`, the vertices are taken in random order."""
    left, found = brute.whole, []
    vertices = draw.sample(brute.vertices, len(brute.vertices)) if draw else brute.vertices
    for v in vertices:
        for w in sorted(brute.near[v] & left, key=vertices.index) if v in left else ():
            if 1 + brute.largest(left - {v, w}) == brute.largest(left):
                found.append((v, w))
                left -= {v, w}
                break
        else:
            left -= {v}
    return sorted(tuple(sorted(edge)) for edge in found)


def matching_line(text, draw=None):
    """The line of `matching` with some maximum matching."""
    brute = brute6(text)
    edges = maximum_matching(brute, draw)
    missed = brute.missed()
    near = {w for v in missed for w in brute.near[v]} - missed
    sets = {"D": missed, "A": near, "C": brute.whole - missed - near}
    words = [text, len(edges), *(f"{a}-{b}" for a, b in edges)]
    for name, it in sets.items():
        words += [name, *sorted(it)]
    return " ".join(map(str, words))


def candidates(brute):
    """The candidates of a graph that is matching covered, with their origins, by listing all tight cuts."""
    found, order, matchings = [], len(brute.vertices), brute.perfect_matchings()
    tight = [
        shore
        for size in range(1, order, 2)
        for shore in map(frozenset, combinations(brute.vertices, size))
        if all(sum(len(edge & shore) == 1 for edge in it) == 1 for it in matchings)
    ]

    def add(origin, shore):
        shore = brute.whole - shore if order in shore else frozenset(shore)
        if 3 <= len(shore) <= order - 3 and shore not in [it for _, it in found]:
            found.append((origin, shore))

    def components(*gone):
        return sorted(brute.components(*gone), key=min)

    classes = sorted({frozenset(w for w in brute.vertices if w == v or not brute.is_matched(v, w)) for v in brute.vertices}, key=min)
    for barrier in classes:
        for part in components(*barrier):
            add("barrier", part)
    if order >= 4 and len(classes) == order:
        for u, v in combinations(brute.vertices, 2):
            parts = components(u, v)
            for part in parts if len(parts) > 1 else ():
                add("separation", part | {u})
    for a, b in edges_of(brute):
        if any((a in shore) != (b in shore) for _, shore in found):
            continue
        sets = [it for it in tight if a in it and b not in it]
        for x, y in ((x, y) for x in brute.vertices for y in brute.vertices if not {x, y} & {a, b}):
            apart = [it for it in sets if x in it and y not in it]
            if apart:
                add("flow", frozenset.intersection(*apart))
                break
    return found


def cut_lines(number, text):
    """The lines of `cuts`."""
    brute = brute6(text)
    found = candidates(brute) if brute.is_covered() else []
    return [" ".join(map(str, [number, text, origin, *sorted(shore)])) for origin, shore in found]


def paths(brute, inside, stage):
    """The paths of odd length whose ends are on a stage and whose other vertices and edges are not."""

    def go(walk):
        for w in sorted(brute.near[walk[-1]]):
            if frozenset((walk[-1], w)) in stage:
                continue
            if w in inside and w > walk[0] and len(walk) % 2:
                yield [*walk, w]
            elif w not in inside and w not in walk:
                yield from go([*walk, w])

    return [path for v in sorted(inside) for path in go([v])]


def edges_along(path):
    return [frozenset(pair) for pair in zip(path, path[1:])]


def ear_decomposition(brute):
    """The first edge and the steps of some ear decomposition: two ears only where no single one leads to a stage that can go on."""
    stage = {frozenset(edges_of(brute)[0])}
    steps = []
    while stage != brute.edges:
        inside = {v for edge in stage for v in edge}
        open_paths = paths(brute, inside, stage)
        singles = [[path] for path in open_paths]
        doubles = [[one, two] for one, two in combinations(open_paths, 2) if not set(one) & set(two)]
        for step in singles + doubles:
            if goes_on(brute, stage, step):
                steps.append(step)
                stage |= {edge for path in step for edge in edges_along(path)}
                break
        else:
            raise AssertionError("an ear decomposition does not go on")
    return edges_of(brute)[0], steps


def ear_lines(number, text):
    """The line of `ears`, if there is one."""
    brute = brute6(text)
    if not brute.is_covered():
        return []
    (a, b), steps = ear_decomposition(brute)
    single = sum(len(step) == 1 for step in steps)
    rows = ["+".join("-".join(map(str, path)) for path in step) for step in steps]
    return [" ".join(map(str, [number, text, single, len(steps) - single, f"{a}-{b}", *rows]))]


def lines(word, number, text):
    """The lines of a word on a graph."""
    return [matching_line(text)] if word == "matching" else {"cuts": cut_lines, "ears": ear_lines}[word](number, text)


def is_right_matching(row, text):
    """Whether a line of `matching` is right: it differs from that of the brute force in the edges alone, which are a matching."""
    due = matching_line(text).split(" ")
    words, brute = row.split(" "), brute6(text)
    edges = [tuple(map(int, word.split("-"))) for word in words[2 : 2 + int(due[1])]]
    others = words[:2] + words[2 + len(edges) :]
    ends = [v for edge in edges for v in edge]
    is_matching = len(set(ends)) == len(ends) and all(a < b and frozenset((a, b)) in brute.edges for a, b in edges)
    is_plain = words[2 : 2 + len(edges)] == [f"{a}-{b}" for a, b in sorted(edges)]
    return is_plain and is_matching and others == due[:2] + due[2 + int(due[1]) :]


def is_right_ears(row, number, text):
    """Whether a line of `ears` is right: each stage is matching covered, ears are odd paths that meet the stage in their ends alone,
    the last stage is the graph, and two ears come only where no single one does. All by listing paths."""
    words, brute = row.split(" "), brute6(text)
    first = tuple(map(int, words[4].split("-")))
    steps = [[[int(v) for v in path.split("-")] for path in word.split("+")] for word in words[5:]]
    single = sum(len(step) == 1 for step in steps)
    plain = ["+".join("-".join(map(str, path)) for path in step) for step in steps]
    if words != [str(number), text, str(single), str(len(steps) - single), "{}-{}".format(*first), *plain]:
        return False
    stage = {frozenset(first)}
    if first[0] >= first[1] or not stage <= brute.edges:
        return False
    for step in steps:
        inside = {v for edge in stage for v in edge}
        open_paths = paths(brute, inside, stage)
        is_due = len(step) == 1 or not any(goes_on(brute, stage, [path]) for path in open_paths)
        known = all(path in open_paths or path[::-1] in open_paths for path in step)
        apart = len({v for path in step for v in path[1:-1]}) == sum(len(path) - 2 for path in step)
        if not (known and apart and is_due and len(step) <= 2 and goes_on(brute, stage, step)):
            return False
        stage |= {edge for path in step for edge in edges_along(path)}
    return stage == brute.edges


def goes_on(brute, stage, step):
    """Whether a stage with further ears is matching covered, and the graph can be reached from it."""
    added = [edge for path in step for edge in edges_along(path)]
    after = stage | set(added)
    met = {v for edge in after for v in edge}
    is_new = len(after) == len(stage) + len(added)
    return is_new and brute.is_matched(*met) and Brute(sorted(met), map(tuple, after)).is_covered()


def second_program():
    """The module tests/judge_lists, which shares no code with the package."""
    loader = SourceFileLoader("judge_lists", f"{ROOT}/tests/judge_lists")
    made = module_from_spec(spec_from_loader("judge_lists", loader))
    loader.exec_module(made)
    return made


def main(words):
    if words[0] not in ("matching", "cuts", "ears"):
        os.execv(os.environ["REAL_MCG6"], ["mcg6", *words])
    bad = []
    for number, line in enumerate(sys.stdin.buffer, 1):
        try:
            text = mcg.graph6.bare(line.decode("latin-1"))
            mcg.graph6.decode(text)
        except mcg.BadGraph as fault:
            bad.append(f"mcg6: line {number} kind {fault.kind}: a bad line")
            if words[-1] == "skip":
                continue
            break
        print(*(f"{row}\n" for row in lines(words[0], number, text)), sep="", end="", flush=True)
    print(*(f"{it}\n" for it in bad), sep="", end="", file=sys.stderr)
    return 4 if bad else 0


if __name__ == "__main__":
    sys.exit(main(sys.argv[1:]))
