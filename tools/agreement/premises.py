"""Has each premise of docs/THEOREMS.md a test that shows that it is needed?

A row of a table of premises names a premise and a graph without it. For each a `Row` of crates/premise_tests must have the words
`LAW: PREMISE` among its premises, and words of the name that the book gives to the graph; where the book names several graphs, one
`Row` for each. No `Row` may be of a premise or a graph that the book does not name. A `Row` in a comment does not count, nor one in a table that no test
goes through. What the rows name in the contracts is compared by named_premises.py. Lists what is missing or too much, and ends with
status 1 if anything is.
"""
import pathlib
import re

import named_premises

DOCUMENT = pathlib.Path("docs/THEOREMS.md")
TESTS = pathlib.Path("crates/premise_tests/src/tests")
# How many premises there are at least.
LEAST = 120

# Premises that no graph of those tests can lack: the test that shows each, by its file and a text in it.
ELSEWHERE = {
    "report_exists_law: `convert`, `decompose`, `script`: a graph that a file can hold": (
        pathlib.Path("crates/run_tests/src/tests/malformed.rt"), '("p mcg2 129 129\\n", 1, 6)'),
}


def rows():
    """The rows of the tables of premises: the premise after its law, and the graphs."""
    law, is_table = None, False
    for line in DOCUMENT.read_text().splitlines():
        if line.startswith("### "):
            law = re.search(r"`([a-z0-9_]+_law)`", line)[1]
        if line.startswith("| Premise |"):
            is_table = True
        elif is_table and line.startswith("| "):
            premise, graphs = [it.strip().replace("\\|", "|") for it in re.split(r"(?<!\\)\|", line.strip().strip("|"))]
            yield f"{law}: {premise}", graphs.split("; ")
        elif not line.startswith("|---"):
            is_table = False


def tables(text):
    """The tables of rows of a file, by their names."""
    return dict(re.findall(r"^static (\w+): \[Row; \d+\] = \[\n(.*?)^\];", text, re.MULTILINE | re.DOTALL))


def tried_in(text):
    """The names of the tables that the tests of a file go through."""
    bodies = re.findall(r"^#\[test\]\nfn .*?^}", text, re.MULTILINE | re.DOTALL)
    return {name for body in bodies for name in re.findall(r"\ball_are_so\([^;]*?&(\w+)\)", body)}


def fields(row):
    """The fields of a row that are compared."""
    found = re.search(r'premises: (.*?),\s*without: (.*?),\s*graph:\s*"([^"]+)",.*?holds: (.*?),\s*fails: (.*)', row, re.DOTALL)
    lists = {"premises": re.findall(r'"([^"]+)"', found[1]), "without": re.findall(r'"([^"]+)"', found[2])}
    return {**lists, "graph": found[3], "holds": found[4], "fails": found[5]}


def tests(wrong):
    """The rows that the tests go through, with their files; adds the tables that no test goes through to those that are wrong."""
    found = []
    for file in sorted(TESTS.glob("*.rt")):
        text = re.sub(r"^\s*//.*\n", "", file.read_text(), flags=re.MULTILINE)
        tried, rows = tried_in(text), tables(text)
        wrong += [f"{file}: no test goes through the table {name}" for name in rows if name not in tried]
        for name in rows:
            if name in tried:
                found += [(file, fields(row)) for row in rows[name].split("    Row {")[1:]]
    return found


def main():
    wrong, known, tried = [], {}, {}
    found = tests(wrong)
    for file, row in found:
        for premise in row["premises"]:
            tried.setdefault(premise, []).append(row["graph"])
    for premise, graphs in rows():
        known[premise] = graphs
        if premise in ELSEWHERE:
            file, text = ELSEWHERE[premise]
            if text not in file.read_text():
                wrong.append(f"{file} does not have {text}: {premise}")
            continue
        shown = tried.get(premise, [])
        wrong += [f"no test of {TESTS} shows that it is needed, by {graph!r}: {premise}"
                  for graph in graphs if not any(it in graph for it in shown)]
        wrong += [f"{DOCUMENT} does not name the graph {it!r} of a test: {premise}"
                  for it in shown if not any(it in graph for graph in graphs)]
    wrong += [f"{DOCUMENT} has no such premise: {premise}" for premise in [*tried, *ELSEWHERE] if premise not in known]
    if len(known) < LEAST:
        wrong.append(f"{DOCUMENT}: only {len(known)} premises were found; there were {LEAST} at least")
    count = named_premises.compare(found, known, wrong)
    for line in wrong:
        print(line)
    if not wrong:
        print(f"each of the {len(known)} premises of {DOCUMENT} has a test that shows that it is needed; "
              f"{count} names of premises are those of the contracts")
    return 1 if wrong else 0
