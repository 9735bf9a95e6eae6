"""What tests/quick tries: cases of tests/front.cases, a file with an error of each kind, and calls on small graphs, each with what tests
how it ends."""
import os
import random
import re
import sys
from importlib.machinery import SourceFileLoader
from importlib.util import module_from_spec, spec_from_loader

ROOT = os.path.dirname(os.path.dirname(os.path.dirname(os.path.realpath(__file__))))
# How many calls of mcg and of mcg6 on small graphs there are.
CALLS, LISTS = 300, 60
# A file with an error of each kind, in the order of the kinds of docs/FORMATS.md: the arguments, and the files. `%` stands for K4.
K4 = "p mcg 4 6\ne 1 2\ne 1 3\ne 1 4\ne 2 3\ne 2 4\ne 3 4\n"
BAD = [
    (["analyse"], ["q mcg 2 1\n"]), (["analyse"], ["p mcg 2 1\nf 1 2\n"]), (["analyse"], ["p mcg 2 1\ne 1 x\n"]),
    (["ears"], ["p mcg 2 1\ne 1 3\n"]), (["convert"], ["p mcg 2 1\ne 1 1\n"]), (["analyse"], ["p mcg2 129 0\n"]),
    (["analyse"], ["p mcg 2 1\n"]), (["analyse"], ["p mcg 2 1\ne 1 2\ne 1 2\n"]), (["check"], [K4, "t mcg 4\ncut 3 2\nleaf\nleaf\n"]),
    (["check"], [K4, "t mcg 4\ncut 2 4\nleaf\nleaf\n"]), (["convert"], ["p mcg2 2 1\nv a\nv b\ne a c\n"]), (["convert"], ["p mcg2 2 1\nv a\nv a\n"]),
    (["convert"], ["p mcg2 1 0\nv a/b\n"]), (["analyse6"], ["A@\n"]), (["analyse6"], ["~??A_\n"]),
]


def module(name):
    loader = SourceFileLoader(name, f"{ROOT}/tests/{name}")
    made = module_from_spec(spec_from_loader(name, loader))
    loader.exec_module(made)
    return made


judge, judge_lists = module("judge"), module("judge_lists")


class Trial:
    """A call of a program: its arguments, in which fN stands for the Nth file, the files, what is on standard input, and what tests how it
    ends, which is given the status and the output and says what is wrong."""

    def __init__(self, kind, name, words, files, test, given=b""):
        self.kind, self.name, self.words, self.files, self.test, self.given = kind, name, words, files, test, given


def bytes_of(text):
    return text if isinstance(text, bytes) else text.encode()


# A word of a plain call: a file that printf makes, or a word without signs of the shell.
WORD = re.compile(r" *(?:<\(printf '([^'%]*)'\)|<(examples/[\w.]+|/dev/null)|([\w./=-]+))(?= |$)")


def plain_call(line):
    """The program, the arguments, the files and the standard input of a line of front.cases, if it is one plain call."""
    given = re.match(r"printf '([^'%]*)' \| (?=mcg)", line)
    data, rest = (unescaped(given[1]), line[given.end():]) if given else (b"", line)
    words, files = [], []
    while rest:
        found = WORD.match(rest)
        if not found:
            return None
        if found[1] is not None:
            files.append(unescaped(found[1]))
            words.append(f"f{len(files)}")
        elif found[2]:
            data = b"" if found[2] == "/dev/null" else read(found[2])
        elif found[3].startswith("examples/") and os.path.isfile(f"{ROOT}/{found[3]}"):
            files.append(read(found[3]))
            words.append(f"f{len(files)}")
        elif found[3] == "/dev/stdin":
            files.append(data)
            words.append(f"f{len(files)}")
        else:
            words.append(found[3])
        rest = rest[found.end():]
    return (words[0], words[1:], files, data) if words and words[0] in ("mcg", "mcg6") else None


def unescaped(text):
    return text.encode().decode("unicode_escape").encode("latin-1")


def read(name):
    with open(f"{ROOT}/{name}", "rb") as it:
        return it.read()


def expects(status, output):
    """A test that wants this status and this output."""
    return lambda found, out: None if (found, out) == (status, output) else f"status {found}, {out!r}; not status {status}, {output!r}"


def judged(words, files):
    """A test that asks tests/judge."""
    def test(status, output):
        try:
            judge.judge(words, files, status, output)
        except judge.Wrong as what:
            return f"{what}: {words} {files} status {status} {output!r}"
        return None
    return test


def judged_list(words, data):
    """A test that asks tests/judge_lists."""
    def test(status, output):
        try:
            judge_lists.judge(words, data, status, output)
        except judge_lists.plain.Wrong as what:
            return f"{what}: {words} {data} status {status} {output!r}"
        return None
    return test


def cases():
    """The cases of tests/front.cases that are one plain call and have whole output, as trials of a program."""
    front = module("front")
    for case in front.cases():
        call = plain_call(case.lines[0]) if len(case.lines) == 1 and "..." not in case.out and not case.marks - {"trial", "front"} else None
        # what has no file of that name, and the text of the program, are no matter of one call
        if call and case.status != 3:
            program, words, files, data = call
            output = "".join(f"{line}\n" for line in case.out).encode()
            yield program, Trial("cases", case.name, words, files, expects(case.status, output), data)


def bad_files():
    """A file of each kind of errors."""
    for number, (words, texts) in enumerate(BAD, 1):
        files = [bytes_of(it) for it in texts]
        words = [*words, *(f"f{place}" for place in range(1, len(files) + 1))]
        line = judge.loaded(words, files)[1]
        if line and line.endswith(f" kind {number}"):
            yield Trial("kinds of errors", f"an error of kind {number}", words, files, expects(4, f"{line}\n".encode()))
        else:
            sys.exit(f"quick: the file for an error of kind {number} has {line}")


def tree_of(draw, place):
    """The lines of some tight cut decomposition at a place, found by enumeration."""
    count = len(place.blocks)
    insides = [it for size in range(3, count - 2, 2) for it in judge.itertools.combinations(range(1, count), size) if place.is_tight(it)]
    if not insides:
        return ["leaf"]
    shore = frozenset().union(*(place.blocks[k - 1] for k in draw.choice(insides)))
    if place.graph.order in shore:
        shore = frozenset(place.where) - shore
    return [judge.spaced("cut", shore), *tree_of(draw, place.kept(shore)), *tree_of(draw, place.merged(shore))]


def tree_text(draw, graph):
    return "".join(f"{line}\n" for line in [f"t mcg {graph.order}", *tree_of(draw, judge.singles(graph))]).encode()


def moves_text(draw, graph):
    lines = [f"m mcg {graph.order}"]
    for _ in range(draw.randrange(3)):
        one, other = draw.sample(range(1, graph.order + 1), 2)
        lines.append(draw.choice([f"rotate {draw.choice('km')}", f"switch . {one} {other}", f"switch k {one} {other}"]))
    return "".join(f"{line}\n" for line in lines).encode()


def drawn_call(draw, fuzz):
    """The arguments and the files of a call of mcg on a small graph; of some a file is damaged."""
    command = draw.choice(["analyse", "analyse6", "convert", "decompose", "picks", "ears"] + 2 * ["check", "compare", "script", "replay"])
    graph = judge.drawn_graph(draw)
    while command in ("check", "compare", "script", "replay") and not judge.Facts(graph).covered:
        graph = judge.drawn_graph(draw)
    text = judge.graph_text(draw, graph)
    if command == "analyse6":
        words, files = [command, "f1"], [judge.graph6_text(judge.Graph(graph.order, graph.ends))]
    elif command == "picks":
        words, files = ["decompose", "f1", "script", "f2"], [text, judge.picks(draw)]
    elif command == "check":
        words, files = [command, "f1", "f2"], [text, tree_text(draw, graph)]
    elif command in ("compare", "script"):
        words, files = [command, "f1", "f2", "f3"], [text, tree_text(draw, graph), tree_text(draw, graph)]
    elif command == "replay":
        words, files = [command, "f1", "f2", "f3"], [text, tree_text(draw, graph), moves_text(draw, graph)]
    else:
        words, files = [command, "f1", *([draw.choice(["first", "last", "balanced"])] if command == "decompose" else [])], [text]
    if len(files) > 1 and draw.randrange(3) == 0:
        place = draw.randrange(1, len(files))
        files[place] = judge.changed_once(draw, files[place])
    elif draw.randrange(10) == 0:
        place = draw.randrange(len(files))
        files[place] = fuzz.spoiled(draw, files[place])
    return words, files


def trials(seed):
    """The trials of each program."""
    found = {"mcg": list(bad_files()), "mcg6": []}
    for program, trial in cases():
        found[program].append(trial)
    draw, fuzz = random.Random(seed), judge.fuzz_module()
    for number in range(CALLS):
        words, files = drawn_call(draw, fuzz)
        found["mcg"].append(Trial("calls of mcg", f"call {number} of seed {seed}", words, files, judged(words, files)))
    for number in range(LISTS):
        words, data = draw.choice(judge_lists.QUERIES), judge_lists.drawn_list(draw)
        # `rt try --cases` ends each output with a line end, and `select` keeps those of the list
        data += b"" if data.endswith(b"\n") else b"\n"
        found["mcg6"].append(Trial("calls of mcg6", f"list {number} of seed {seed}", words, [], judged_list(words, data), data))
    return found
