"""Is each example in the docs of the library the text of a test?

An example is the block of a `///` doc between two lines of three backticks. Its test is the function `shows_..` of crates/engine_tests or
crates/text_tests that EXAMPLES names, without the line that takes the allocator and the last line. Tests are tried by the gate; so an
example that no longer compiles, or says what is not so, is found. And each block of Rattle in docs/LIBRARY.md is a text of the crate
`example_order`, up to spaces.
"""
import pathlib
import re

TESTS = ["crates/engine_tests/src/tests/examples.rt", "crates/text_tests/src/tests/examples.rt"]

# How many tests of examples there are at least.
LEAST = 12
# The calls with an example: where each is, how its line begins, and the name of its test after `shows_`.
EXAMPLES = [
    ("graph_facts/src/facts.rt", "    pub fn of(", "facts"),
    ("graph_facts/src/covered_graph.rt", "    pub fn of(", "covered"),
    ("gallai_edmonds/src/three_sets.rt", "pub fn sets(", "sets"),
    ("allowed_edges/src/edges.rt", "pub fn allowed(", "allowed"),
    ("barrier_kit/src/canonical_partition.rt", "pub fn classes(", "classes"),
    ("leaf_kinds/src/kinds.rt", "pub fn kind(", "kind"),
    ("tight_cuts/src/finder.rt", "pub fn candidates(", "candidates"),
    ("decomposer/src/trees.rt", "pub fn decompose<", "decompose"),
    ("tree_check/src/scan.rt", "pub fn check(", "check"),
    ("uncross/src/comparing.rt", "pub fn compare(", "compare"),
    ("ear_core/src/building.rt", "pub fn build_ears(", "build_ears"),
    ("ear_core/src/checking.rt", "pub fn check_ears(", "check_ears"),
    ("graph_text/src/either_version.rt", "pub fn read_any(", "read_any"),
    ("graph_text/src/writing.rt", "pub fn write_graph(", "write_graph"),
]


def tests():
    """The lines of each test `shows_NAME`, by its name."""
    found = {}
    for path in TESTS:
        text = pathlib.Path(path).read_text()
        for name, body in re.findall(r"^#\[test\]\nfn shows_(\w+)\(rt: HostRuntime\) -> Result<\(\), Fail> \{\n(.*?)^\}", text, re.M | re.S):
            lines = [it.removeprefix("    ") for it in body.splitlines()]
            found[name] = lines[1:-1] if lines[0] == "let alloc = rt.alloc();" and lines[-1] == "Ok(())" else []
    return found


def example(path, start):
    """The lines of the example in the doc above the line that begins so."""
    lines = pathlib.Path("crates", path).read_text().splitlines()
    places = [i for i, line in enumerate(lines) if line.startswith(start)]
    if len(places) != 1:
        return []
    above = places[0]
    while above and lines[above - 1].strip().startswith(("///", "#[")):
        above -= 1
    doc = [line.strip()[3:].removeprefix(" ") for line in lines[above:places[0]] if line.strip().startswith("///")]
    marks = [i for i, line in enumerate(doc) if line.startswith("```")]
    return doc[marks[0] + 1:marks[1]] if len(marks) == 2 else []


def blocks():
    """The blocks of code and of definitions in docs/LIBRARY.md, and those that `example_order` does not have, by their first lines."""
    files = [it for it in sorted(pathlib.Path("crates/example_order").rglob("*")) if it.suffix in (".rt", ".antt") and "out" not in it.parts]
    code = " ".join("\n".join(it.read_text() for it in files).split())
    found = re.findall(r"^```(?:rust|antt)\n(.*?)^```", pathlib.Path("docs/LIBRARY.md").read_text(), re.M | re.S)
    return found, [it.split("\n")[0] for it in found if " ".join(it.split()) not in code]


def main():
    found = tests()
    shown, strange = blocks()
    wrong = [f"crates/{path}: the example of `{name}` is not the text of the test shows_{name}"
             for path, start, name in EXAMPLES if not example(path, start) or example(path, start) != found.get(name)]
    wrong += [f"docs/LIBRARY.md: crates/example_order does not have the block that begins with {it!r}" for it in strange]
    wrong += ["docs/LIBRARY.md: it has fewer than 8 blocks of Rattle"] if len(shown) < 8 else []
    wrong += [f"{TESTS[0]} or {TESTS[1]}: shows_{name} is the text of no example" for name in sorted(set(found) - {it[2] for it in EXAMPLES})]
    if len(found) < LEAST:
        wrong.append(f"only {len(found)} tests of examples were found; there were {LEAST} at least")
    for line in wrong:
        print(line)
    if not wrong:
        print(f"crates: each of {len(EXAMPLES)} examples in the docs of calls is the text of a test, and each of the {len(shown)} blocks of "
              "docs/LIBRARY.md one of the crate example_order")
    return 1 if wrong else 0
