"""Does each public name of the product mean one thing?

No two public types of the product have one name, and no two public laws; nor is the name of a law that of another with a letter more.
A name is public if lib.rt passes it on or declares it, or if it is declared in a public module; a law is a function whose name ends in
`_law`. Names that stay although they break this rule are below, each with the reason; those that no longer break it must go.
"""
import itertools
import pathlib
import re

import api
import paths

OTHERS = {"plain_graph", "engine_tests", "premise_tests", "text_tests", "run_tests", "mcg6_tests", "example_order"}
STAY = {}
LEAST_TYPES, LEAST_LAWS = 150, 150
DECLARED = re.compile(r"^pub (?:fn|struct|enum|trait|type) (\w+)", re.MULTILINE)


def public_names(crate):
    """The public types and laws that a crate declares."""
    names, modules = api.passed_on(crate)
    source = pathlib.Path("crates", crate, "src")
    for path in source.rglob("*.rt"):
        is_open = path.relative_to(source).parts[0].removesuffix(".rt") in modules
        for name in DECLARED.findall(path.read_text()):
            if (is_open or name in names) and (name.endswith("_law") or name[0].isupper()):
                yield name


def has_a_letter_more(one, other):
    """Whether the longer name is the shorter one with a letter added."""
    shorter, longer = sorted((one, other), key=len)
    return len(longer) == len(shorter) + 1 and any(longer[:i] + longer[i + 1:] == shorter for i in range(len(longer)))


def main():
    homes = {}
    for crate in paths.crates():
        if crate not in OTHERS and pathlib.Path("crates", crate, "src/lib.rt").exists():
            for name in public_names(crate):
                homes.setdefault(name, []).append(crate)
    laws = sorted(it for it in homes if it.endswith("_law"))
    types = len(homes) - len(laws)
    breaks = {it: f"{it} is a name in {' and in '.join(homes[it])}" for it in sorted(homes) if len(homes[it]) > 1}
    breaks |= {f"{a} {b}": f"the laws {a} of {homes[a][0]} and {b} of {homes[b][0]} differ by a letter"
               for a, b in itertools.combinations(laws, 2) if has_a_letter_more(a, b)}
    wrong = [said for names, said in breaks.items() if names not in STAY]
    wrong += [f"{it} is among the names that stay, and means one thing: drop it there" for it in STAY if it not in breaks]
    if types < LEAST_TYPES or len(laws) < LEAST_LAWS:
        wrong.append(f"only {types} public types and {len(laws)} laws were compared; there were {LEAST_TYPES} and {LEAST_LAWS} at least")
    for line in wrong:
        print(line)
    if not wrong:
        print(f"crates: {types} public types and {len(laws)} public laws have names of their own, but for {len(STAY)} that stay")
    return 1 if wrong else 0
