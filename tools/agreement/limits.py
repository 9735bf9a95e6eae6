"""Is each number in the usage, the pages, the messages and the manual pages the one that the programs use?

The usage, the notes on arguments and the pages are in crates/command_table/src, the messages in crates/front_words/src/texts.rt, and
the manual pages in share/man/man1. EXPLAINED has for each of these texts a pattern for each place with numbers, and behind it the
sources of these numbers: a constant of SOURCES, which is read from the code, a status by its name, or a number that is no limit of a
program, with what it is (PLAIN). A number that no pattern covers, one that differs from its source, and a pattern that fits nothing
are errors. It prints how many numbers it compared with constants and statuses, and how many are plain, and fewer than `LEAST` are an
error too.
"""
import pathlib
import re

import messages

# A constant by its short name: its file, and the pattern of its value.
SOURCES = {
    "vertices": ("vset_core/src/vertex_set.rt", r"const MOST_VERTICES: u32 = ([\d_]+);"),
    "edges": ("graph_core/src/graph.rt", r"const MOST_EDGES: u32 = ([\d_]+);"),
    "vertices1": ("graph_text/src/version_one.rt", r"const VERSION_ONE_VERTICES: u32 = ([\d_]+);"),
    "edges1": ("graph_text/src/version_one.rt", r"const VERSION_ONE_EDGES: u32 = ([\d_]+);"),
    "letters": ("graph_text/src/names.rt", r"const MOST_BYTES: usize = ([\d_]+);"),
    "nodes": ("tree_text/src/tree_format.rt", r"const MOST_NODES: u32 = ([\d_]+);"),
    "picks": ("tree_text/src/pick_format.rt", r"const MOST_PICKS: u32 = ([\d_]+);"),
    "moves": ("move_text/src/move_format.rt", r"const MOST_MOVES: usize = ([\d_]+);"),
    "bytes": ("outside/src/limits.rt", r"const MOST_BYTES: usize = ([\d_]+);"),
    "line": ("outside/src/limits.rt", r"const MOST_LINE: usize = ([\d_]+);"),
    "pieces": ("grow_gen/src/generator.rt", r"const MOST_PIECES: u32 = ([\d_]+);"),
    "first": ("graph6_text/src/digits.rt", r"const ZERO: u8 = ([\d_]+);"),
    "last": ("graph6_text/src/digits.rt", r"const LAST: u8 = ([\d_]+);"),
    "short": ("graph6_text/src/checks.rt", r"const MOST_SHORT: u32 = ([\d_]+);"),
}
# Each number that is no constant: what it is.
PLAIN = {
    "two": "a vertex cut of two vertices, by its definition", "from0": "the numbers of cuts begin with 0",
    "least": "the least number of letters, pieces, vertices or files", "seed0": "the least seed", "example": "an argument of an example",
    "version": "a version of the graph format, by its header", "quiet": "the value of MCG_QUIET", "reason": "a reason, see FORMATS",
    "section": "a section of the manual", "geng": "an argument of another program", "bad": "a number that no vertex and no edge has",
    "place": "a place of a file or line",
}
MCG_STATUSES = [(r"\.It (0)\nThe report was", ["status Done"]), (r"\.It (1)\nThe report is neg", ["status Negative"]),
                (r"exit with (0) for every", ["status Done"]), (r"\.It (2)\nUsage", ["status Usage"]), (r"\.It (3)\nA file could", ["status ReadFault"]),
                (r"\.It (4)\nA file is longer", ["status BadInput"]), (r"\.It (5)\nThe output", ["status WriteFault"]),
                (r"the status is (5) too", ["status WriteFault"]), (r"\.It (6)\nOut of", ["status Memory"]), (r"\.It (7)\nAn argument", ["unread"]),
                (r"For statuses (1) to (7),", ["status Negative", "unread"])]
LIST_STATUSES = [(r"\.It (0)\nAll results", ["status Done"]), (r"\.It (2)\nUsage", ["status Usage"]), (r"\.It (3)\nThe list could", ["status ReadFault"]),
                 (r"\.It (4)\nA line is not", ["status BadInput"]), (r"\.It (5)\nThe output", ["status WriteFault"]),
                 (r"the status is (5) too", ["status WriteFault"]), (r"\.It (6)\nOut of", ["status Memory"]), (r"\.It (7)\nAn argument", ["unread"]),
                 (r"does not use status (1)\.", ["status Negative"]), (r"For statuses (2) to (7),", ["status Usage", "unread"])]
NEGATIVE, SKIPPED = (r"the status is (1)\.", ["status Negative"]), (r"the status is then (4)\.", ["status BadInput"])
PAGE_OF = {
    "mcg": {
        "analyse": [(r"first (2)-vertex cut", ["two"])],
        "decompose": [(r"counted from (0)", ["from0"]), NEGATIVE],
        **{it: [NEGATIVE] for it in ("check", "checkears", "ears", "compare", "script", "replay")},
        "grow": [(r"SEED, (0) to (\d+),", ["seed0", "seed"]), (r"PIECES, (1) to (\d+),", ["least", "pieces"]), (r"grow (7) (4)", ["example"] * 2)],
    },
    "mcg6": {
        **{it: [SKIPPED] for it in ("kinds", "leaves", "elementary", "matching", "ears")},
        "cuts": [SKIPPED, (r"numbers them, from (0)", ["from0"])],
        "select": [SKIPPED, (r"bricks=(2) or braces=(0)", ["example"] * 2)],
        "graph": [(r"more than ([\d,]+) vertices or ([\d,]+) edges", ["vertices1", "edges1"])],
    },
}
USAGE = [(r"SEED is (0) to (\d+)", ["seed0", "seed"]), (r"PIECES is (1) to (\d+)", ["least", "pieces"])]
TABLE = [*USAGE, (r'"SEED",\s*(0),\s*([\d_]+),', ["seed0", "seed"]), (r'"PIECES",\s*(1),\s*([\d_]+),', ["least", "pieces"]),
         (r"PIECES after SEED, (1) to (\d+)", ["least", "pieces"])]
MESSAGES = {
    "FAULT_RANGE": ["bad"], "FAULT_BAD_NAME": ["least", "letters"], "GRAPH6_RANGE": ["first", "last"], "GRAPH6_LIMIT": ["vertices", "edges"],
    "GRAPH6_LONG_FORM": ["short"], "LIMIT_GRAPH": ["vertices1", "edges1", "vertices", "edges"], "LIMIT_TREE": ["nodes"], "LIMIT_PICKS": ["picks"],
    "LIMIT_MOVES": ["moves"], "FILE_TOO_LONG": ["bytes"], "LINE_TOO_LONG": ["line"],
}
MANUAL_PAGES = {
    "mcg": [*MCG_STATUSES, (r"at most ([\d,]+) vertices and ([\d,]+) edges", ["vertices", "edges"]), (r"first (2)-vertex cut", ["two"]),
            (r"version (2) of the graph", ["version"]), (r"numbered from (0)", ["from0"]), (r"\((1) to (\d+)\)", ["least", "pieces"]),
            (r"\((0) to (\d+)\)", ["seed0", "seed"]), (r"numbered (1) to N", ["least"]), (r"This is version (1)", ["version"]),
            (r"at most ([\d,]+) vertices and ([\d,]+)\nedges", ["vertices1", "edges1"]), (r"In version (2) the", ["version"]),
            (r"longer than ([\d,]+) bytes", ["bytes"]), (r"F is (1) for the first file on the command line, (2) for", ["place"] * 2),
            (r"If it is (1), nothing", ["quiet"]), (r"\nis (1) or the output goes", ["quiet"]), (r"\bXr \w+ (1)\b", ["section"]),
            (r"\.It ([1-7])\n(?:The shore|The cut|The node|An ear|The ends|An inner|An edge|After the|The edge)", ["reason"])],
    "mcg6": [*LIST_STATUSES, (r"at most ([\d,]+) vertices and ([\d,]+) edges", ["vertices", "edges"]), (r"in version (1) of the graph format, or in version (2)", ["version"] * 2),
             (r"more than ([\d,]+) vertices or ([\d,]+) edges", ["vertices1", "edges1"]), (r"alone on line (1)\.", ["place"]),
             (r"more than ([\d,]+) bytes", ["line"]), (r"If it is (1), nothing", ["quiet"]), (r"\nis (1) or the output goes", ["quiet"]),
             (r"\bXr \w+ (1)\b", ["section"]), (r"geng -c (8) ", ["geng"]), (r"(10) (15):(15) .* -f (4)-(6) ", ["geng"] * 5)],
}
UNREAD = ("crates/arguments/src/refusal.rt", r"ArgumentFault::NotText \{ \.\. \} => (\d+),")
# How many numbers are compared at least, with constants and statuses and in all.
LEAST_TIED, LEAST = 75, 130
# A number; the last letter of a name, as that of UTF-8, is none.
NUMBER = re.compile(r"(?<![\w.])(?<!UTF-)\d[\d,_]*\b(?!,?\d)")


def read(path):
    return pathlib.Path(path).read_text()


def plain(number):
    return int(re.sub("[,_]", "", number))


def sources():
    """The numbers that the programs use, by their short names."""
    found = {}
    for name, (file, pattern) in SOURCES.items():
        value = re.search(pattern, read(f"crates/{file}"))
        found[name] = plain(value[1]) if value else None
    # a number has at most so many digits, and each such number is a seed
    found["seed"] = 10 ** plain(re.search(r"const MOST_DIGITS: usize = ([\d_]+);", read("crates/line_text/src/numerals.rt"))[1]) - 1
    named = re.search(r"pub enum Status \{(.*?)^\}", read("crates/bench_outcomes/src/status.rt"), re.S | re.M)[1]
    found.update({f"status {it}": at for at, it in enumerate(re.findall(r"^    (\w+),$", named, re.M))})
    of_lists = re.search(r"pub enum ListStatus \{(.*?)^\}", read("crates/mcg6_top/src/status.rt"), re.S | re.M)[1]
    for name, code in re.findall(r"^    (\w+) = (\d+),$", of_lists, re.M):
        if found.get(f"status {name}") != int(code):
            found[f"status {name}"] = None
    unread = re.search(UNREAD[1], read(UNREAD[0]))
    found["unread"] = plain(unread[1]) if unread else None
    return found


def explained(what, text, rows, known, counts):
    """What is wrong with the numbers of a text, each of which must be in a place that a row covers."""
    covered = set()
    for pattern, names in rows:
        places = list(re.finditer(pattern, text))
        if not places:
            yield f"{what}: nothing fits {pattern}"
        for place in places:
            for group, name in enumerate(names, 1):
                covered.add(place.start(group))
                counts["plain" if name in PLAIN else "tied"] += 1
                number = plain(place[group])
                if name not in PLAIN and number != known.get(name):
                    yield f"{what}: {number}, where the programs have {known.get(name)} ({name}): {place[0].strip()}"
    for number in NUMBER.finditer(text):
        if number.start() not in covered:
            yield f"{what}: nothing explains the number {number[0]} in: {text[max(0, number.start() - 30):number.end() + 20]!r}"


def texts():
    """Each text by what it is, with its rows."""
    table = re.sub(r"static (LIST_)?ROWS: \[Row; \d+\]", "", read("crates/command_table/src/table.rt"))
    yield "the tables and usages", table.replace("\\n", "\n"), [(f"{p}", n) for p, n in TABLE]
    for program, file in (("mcg", "pages"), ("mcg6", "list_pages")):
        for name, text in re.findall(r'^pub const (\w+): &str =\s*"(.*?)";', read(f"crates/command_table/src/{file}.rt"), re.S | re.M):
            yield f"the page of {name.lower()} of {program}", text, PAGE_OF[program].get(name.lower(), [])
        manual = re.sub(r"(?m)^\.(?:\\\"|Dd|Dt).*$", "", read(f"share/man/man1/{program}.1"))
        yield f"the manual page of {program}", manual, MANUAL_PAGES[program]
    for name, text in messages.constants(messages.TEXTS).items():
        rows = [(".*?".join([r"(?<![\w.])(\d[\d,]*)\b"] * len(MESSAGES[name])), MESSAGES[name])] if name in MESSAGES else []
        yield f"the text {name}", text, rows


def main():
    known, counts, wrong = sources(), {"tied": 0, "plain": 0}, []
    wrong += [f"there is no number for {name}" for name, value in known.items() if value is None]
    for what, text, rows in texts():
        wrong += explained(what, text, rows, known, counts)
    total = counts["tied"] + counts["plain"]
    if counts["tied"] < LEAST_TIED or total < LEAST:
        wrong.append(f"only {counts['tied']} numbers were compared with the code, of {total} found; there were {LEAST_TIED} of {LEAST} at least")
    print("\n".join(wrong) if wrong else f"limits: each of {counts['tied']} numbers in the usage, pages, messages and manual pages is that of the code; {counts['plain']} others are no limits")
    return 1 if wrong else 0
