"""Does docs/THEOREMS.md have each theorem of the crate `theorems`, with a link to its file and with its sources?

A theorem is a public function whose name ends in `_law`. The document must have a heading with a link to it, by its name and file,
and below that heading each year that its doc comment cites, and one row of a table for each clause of its contract, which begins with
`LAW.CLAUSE`, or with `LAW` where the one clause has no name. Lists what is missing or too much, and ends with status 1 if anything is.
"""
import pathlib
import re

DOCUMENT = pathlib.Path("docs/THEOREMS.md")
# How many theorems there are at least.
LEAST = 40


def theorems():
    """Each theorem with its file, its doc comment and the names of its clauses."""
    for file in sorted(pathlib.Path("crates/theorems/src").glob("*.rt")):
        comment, law = [], None
        for line in file.read_text().splitlines():
            if line.startswith("///"):
                comment.append(line[3:].strip())
            elif found := re.match(r"pub fn ([a-z0-9_]+_law)(?:<[^>]*>)?\(", line):
                law, clauses = (found[1], file, " ".join(comment)), []
                comment = []
            elif law and (found := re.match(r" +ensures (?:([a-z0-9_]+) )?\{", line)):
                clauses.append(f"{law[0]}.{found[1]}" if found[1] else law[0])
            elif law and line in ("{}", "{"):
                yield *law, clauses
                law = None
            elif not line.startswith("#["):
                comment = []


def main():
    sections = {}
    for part in re.split(r"^### ", DOCUMENT.read_text(), flags=re.M)[1:]:
        for name, file in re.findall(r"\[`([a-z0-9_]+)`\]\(\.\./([^)]+)\)", part.splitlines()[0]):
            sections[name, file] = part
    known, missing = set(), []
    for name, file, comment, clauses in theorems():
        known.add((name, str(file)))
        part = sections.get((name, str(file)))
        if part is None:
            missing.append(f"{name}: no heading with a link to {file}")
            continue
        missing += [f"{name}: the source of {year} is not named" for year in re.findall(r"\b(?:1[89]|20)\d\d\b", comment) if year not in part]
        rows = re.findall(rf"^\| `({name}(?:\.[a-z0-9_]+)?)` \|", part, re.M)
        missing += [f"{name}: no row for the clause {clause}" for clause in clauses if clause not in rows]
        missing += [f"{name}: there is no clause {row}" for row in rows if row not in clauses]
        missing += [f"{name}: two rows for the clause {row}" for row in sorted(set(rows)) if rows.count(row) > 1]
    missing += [f"{name}: there is no such theorem in {file}" for name, file in sections if (name, file) not in known]
    if len(known) < LEAST:
        missing.append(f"only {len(known)} theorems were found; there were {LEAST} at least")
    for line in missing:
        print(f"{DOCUMENT}: {line}")
    if not missing:
        print(f"{DOCUMENT} names each of the {len(known)} theorems with its sources")
    return 1 if missing else 0
