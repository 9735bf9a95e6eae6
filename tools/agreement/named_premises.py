"""Is each premise that crates/premise_tests tries a premise of that clause, and is it what fails there?

A `Row` names premises twice: by the words of docs/THEOREMS.md, in `premises`, and by `LAW.CLAUSE: NAME`, in `without`. The clause is
in the contract of the law in crates/theorems, and NAME is in a premise of it: in what stands before its last arrow, in a side of the
equivalence that it ends with, or in a premise within its conclusion. The clauses are those that the words name. The words stand for
the name by a line `words:` of premises.txt; of several parts, which a semicolon divides, the one at the place of the graph does.

Each variant of crates/premise_tests/src/tests/claims.rt says in lines `In the laws:` which names it stands for; # is its number. The
first claims that fail of a row must stand for its names, and claims that hold of it for every other premise of those clauses, unless
a line `given:` of premises.txt says why no claim is needed. A premise of one of the clauses that no row tries has a line `untried:`.
"""
import pathlib
import re

from contracts import clauses, has, premises_of

CLAIMS = pathlib.Path("crates/premise_tests/src/tests/claims.rt")
LIST = pathlib.Path("tools/agreement/premises.txt")
KINDS = {"Property": "Is", "OfNumber": "Number", "OfSet": "Set", "OfEdges": "Edges", "OfWeight": "Weight"}
# How many names are compared at least.
LEAST = 200


def listed():
    """The lines of premises.txt, by their kind and what they are about."""
    found = {"words": {}, "given": {}, "untried": {}}
    for line in LIST.read_text().splitlines():
        if line and not line.startswith("#"):
            kind, about, text = re.fullmatch(r"(\w+): (.*?) => (.*)", line).groups()
            found[kind][about] = text
    return found


def names_of_claims():
    """The names that each claim stands for."""
    found, kind, names = {}, None, []
    for line in CLAIMS.read_text().splitlines():
        if it := re.match(r"pub enum (\w+)", line):
            kind = it[1]
        elif it := re.match(r"    /// In the laws: `(.*)`\.", line):
            names.append(it[1])
        elif it := re.match(r"    (\w+)(\(.*\))?,", line):
            found[f"{KINDS[kind]}.{it[1]}" if kind in KINDS else it[1]] = names
            names = []
    return found


def claims_in(text, known):
    """The claims in a list, each as the names that it stands for."""
    for name, several, one, rest in re.findall(r"\b([A-Z]\w+)\(\s*(?:&\[([A-Z][\w, \n]*)\]|([A-Z]\w*(?!\w|::)))?,?\s*([^()]*)", text):
        kind = name.replace("Sets", "Set")
        numbers = [it.strip() for it in rest.split(",")]
        for it in re.findall(r"\w+", several or one) or [None]:
            yield [name.replace("#", numbers[0]) for name in known[f"{kind}.{it}" if it else kind]]


def entries(row, file, contracts, wrong):
    """The clause and the name of each premise that a row names, if the clause is there and has a premise with the name."""
    for text in row["without"]:
        clause, name = text.split(": ", 1)
        premises, parts = premises_of(contracts[clause]) if clause in contracts else ([], [])
        if clause not in contracts:
            wrong.append(f"{file}: no law of crates/theorems has the clause {clause}")
        elif not any(has(it, name) for it in [*premises, *sum(parts, [])]):
            wrong.append(f"{file}: {clause} has no premise {name}")
        else:
            others = premises if any(has(it, name) for it in premises) else [
                *premises, *next(part for part in parts if any(has(it, name) for it in part))]
            yield clause, name, [it for it in others if not has(it, name)]


def compare_claims(row, file, found, known, given, wrong):
    """Whether the first claims that fail stand for the names, and those that hold for all other premises."""
    fails, holds = list(claims_in(row["fails"], known)), sum(claims_in(row["holds"], known), [])
    places = set()
    for clause, name, others in found:
        place = next((place for place, names in enumerate(fails) if name in names), None)
        places.add(place)
        if place is None:
            wrong.append(f"{file}: no claim that fails of {row['graph']!r} stands for {name}")
        for it in others:
            if not any(has(it, name) for name in [*holds, *given]):
                wrong.append(f"{file}: no claim that holds of {row['graph']!r} stands for the premise {it} of {clause}")
    if None not in places and places != set(range(len(places))):
        wrong.append(f"{file}: the first claim that fails of {row['graph']!r} does not stand for its premise")


def compare_words(row, file, found, book, words, wrong):
    """Whether the words of the book name the same clauses, and stand for the same names."""
    left = {(clause, name) for clause, name, _ in found}
    for text in row["premises"]:
        law, named, said = re.fullmatch(r"(\w+_law): ((?:`\w+`(?:, )?)*)(?:: )?(.*)", text).groups()
        wanted = [it if it.endswith("_law") else f"{law}.{it}" for it in re.findall(r"`(\w+)`", named)]
        parts, graphs = said.split("; "), book.get(text, [])
        place = next((place for place, graph in enumerate(graphs) if row["graph"] in graph), 0)
        if len(parts) == len(graphs):
            parts = [parts[place]]
        names = [name for part in parts for name in words.get(part, "").split("; ")]
        here = {(clause, name) for clause, name in left if name in names and (clause in wanted or not wanted and clause.split(".")[0] == law)}
        if not here or not {*wanted} <= {clause for clause, _ in here}:
            wrong.append(f"{file}: the row of {row['graph']!r} does not name {' '.join(parts)!r} of {', '.join(wanted) or law}")
        row.setdefault("named", set()).update(here)
    for clause, name in sorted(left - row["named"]):
        wrong.append(f"{file}: no words of the row of {row['graph']!r} stand for {name} of {clause}")


def compare(rows, book, wrong):
    """Compares all rows; the number of names."""
    contracts, known, lists, tried = clauses(), names_of_claims(), listed(), {}
    for file, row in rows:
        found = list(entries(row, file, contracts, wrong))
        compare_claims(row, file, found, known, lists["given"], wrong)
        compare_words(row, file, found, book, lists["words"], wrong)
        for clause, name, _ in found:
            tried.setdefault(clause, []).append(name)
    untried = {}
    for clause, names in tried.items():
        for it in premises_of(contracts[clause])[0]:
            if not any(has(it, name) for name in [*names, *lists["given"]]):
                untried[f"{clause}: {it}"] = it
    wrong += [f"no row tries the premise {it}" for it in untried if it not in lists["untried"]]
    wrong += [f"{LIST} has the premise {it}, which a row tries or which is not there" for it in lists["untried"] if it not in untried]
    count = sum(map(len, tried.values()))
    if count < LEAST:
        wrong.append(f"only {count} names of premises were compared; there were {LEAST} at least")
    return count
