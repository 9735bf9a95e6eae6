"""Has each public item of the crates that docs/LIBRARY.md names its four lines?

An item is a function, a type, a trait or a constant that lib.rt passes on or that a public module declares, or a public method of such a
type. The lines are: what it is or returns; each error, if it can fail; the cost, if it takes more than constant time; and a source in the
literature, in its own doc or in the head of its crate. A law does nothing at run time, so it has no error and no cost.
"""
import pathlib
import re

import api
import paths

DOCUMENT = pathlib.Path("docs/LIBRARY.md")
LEAST = 370
DECLARED = re.compile(r"^ *pub (?:struct|enum|trait|type|const|static) (\w+)")
SOURCE = re.compile(r"\b(?:1[89]|20)\d\d\b|Sources?:")
# Crates with no literature behind them, and why.
NO_SOURCE = {
    "counting": "sums and lists of numbers",
    "vset_core": "a set in a machine word",
    "line_text": "the formats are those of Mcg",
    "graph_text": "the format is that of Mcg",
    "example_order": "an example",
}


def named_crates():
    """The crates that the document names."""
    text = DOCUMENT.read_text()
    return [it for it in paths.crates() if re.search(rf"`{it}(?:`|::)", text)]


def declarations(path):
    """The types, traits and constants of a file, each with its place and its doc."""
    lines = path.read_text().splitlines()
    for i, line in enumerate(lines):
        found = DECLARED.match(line)
        if found:
            above = i
            while above and lines[above - 1].strip().startswith(("///", "#[")):
                above -= 1
            yield f"{path}:{i + 1}", found[1], " ".join(it.strip() for it in lines[above:i] if it.strip().startswith("///"))


def items(crate):
    """The public items of a crate: place, name, doc, and the function, if it is one."""
    names, modules = api.passed_on(crate)
    source = pathlib.Path("crates", crate, "src")
    for path in sorted(source.rglob("*.rt")):
        is_open = path.relative_to(source).parts[0].removesuffix(".rt") in modules
        for place, name, doc in declarations(path):
            if is_open or name in names:
                yield place, name, doc, None
        for it in api.functions(path):
            if it.is_public and (is_open or (it.owner or it.name) in names):
                yield it.place, it.name, it.doc, it


def main():
    crates = named_crates()
    slow = api.long_ones([it for crate in sorted({*crates, *api.CRATES}) for path in sorted(pathlib.Path("crates", crate, "src").rglob("*.rt"))
                          for it in api.functions(path)])
    wrong, counts = [], {"items": 0, "errors": 0, "costs": 0}
    for crate in crates:
        head = pathlib.Path("crates", crate, "src/lib.rt").read_text().split("#![", 1)[0]
        for place, name, doc, function in items(crate):
            counts["items"] += 1
            if not doc:
                wrong.append(f"{place}: `{name}` does not say what it is")
            if not SOURCE.search(doc) and not SOURCE.search(head) and crate not in NO_SOURCE:
                wrong.append(f"{place}: neither `{name}` nor its crate names a source")
            if function is None or function.body.replace(" ", "").endswith("{}"):
                continue
            error = api.error_of(function)
            if error:
                counts["errors"] += 1
                if not api.names_error(doc, error):
                    wrong.append(f"{place}: `{name}` does not name its error `{error}`")
            if error or place in slow:
                counts["costs"] += 1
                if not api.COST.search(doc):
                    wrong.append(f"{place}: `{name}` does not say its cost")
    if counts["items"] < LEAST:
        wrong.append(f"only {counts['items']} public items were found in the crates of {DOCUMENT}; there were {LEAST} at least")
    for line in wrong:
        print(line)
    if not wrong:
        print(f"crates: each of the {counts['items']} public items of the {len(crates)} crates that {DOCUMENT} names says what it is and has a source; "
              f"the {counts['errors']} that can fail name their errors, and the {counts['costs']} that take time their cost")
    return 1 if wrong else 0
