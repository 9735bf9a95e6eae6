"""Does each clause that a document cites stand in the contract that it is cited of?

Looks in the tables of TRUST, PROVED and mutants.md, and in FORMATS, MANUAL and LIBRARY, for words of the form "`a`, `b` (`R`) of `f`", where `f` is
a function, a type or a record of the crates. Each of `a` and `b` must be a clause `ensures a` of a function `f`, or a field of a record
that its contract names; a method, a field or a ghost item of the type `f`; or a field of the record `f`. A function of `laws` may be
cited of its module. Each field of the records of the top calls must be named in PROVED. It lists each that is not there, and ends with
status 1 if there is any, or if it found fewer than `LEAST` citations.
"""
import collections
import pathlib
import re

DOCUMENTS = ["docs/TRUST.md", "docs/dev/PROVED.md", "tools/agreement/mutants.md", "docs/FORMATS.md", "docs/MANUAL.md", "docs/LIBRARY.md"]
PROVED = pathlib.Path("docs/dev/PROVED.md")
LEAST, LEAST_FIELDS = 150, 30
# The records of the top calls.
TOP = ["Runs", "ListRuns", "Fronts", "ListFronts"]
WORD = r"`([\w:]+)`"
CITED = re.compile(rf"((?:{WORD}(?: \([^)]*\))?(?:,? and |, ))*{WORD}(?: \([^)]*\))?) of (?:an? )?{WORD}(?: of {WORD})?")
MODULES = {"laws", "written_back"}


def sources(suffix):
    """The texts of the crates' files with this suffix: code, or definitions."""
    folder = "src" if suffix == ".rt" else "specs"
    return [it.read_text() for it in sorted(pathlib.Path("crates").glob(f"*/{folder}/**/*{suffix}"))]


def contracts(texts):
    """The contracts of each function, by its name: from its name to its body."""
    found = collections.defaultdict(list)
    for text in texts:
        for it in re.finditer(r"\bfn (\w+)\b(.*?)(?:^ *\{(?:\})?$|;$)", text, re.S | re.M):
            found[it[1]].append(it[2])
    return found


def records(texts):
    """The fields of each record; and the same with those of the records that it has as parts."""
    found, parts = collections.defaultdict(set), collections.defaultdict(set)
    for text in texts:
        for it in re.finditer(r"^pub record (\w+)\b[^\n]*(?:\n [^\n]*?)*?\bwhere\n((?:[ \t].*\n|\n|--.*\n)*)", text, re.M):
            found[it[1]] |= set(re.findall(r"^  pub ([\w-]+) :", it[2], re.M))
            parts[it[1]] |= set(re.findall(r"^  pub [\w-]+ : ([A-Z]\w+)\b", it[2], re.M))
    return found, {name: fields.union(*(found.get(part, set()) for part in parts[name])) for name, fields in found.items()}


def members(texts):
    """What each type has: methods, fields, variants and ghost items, of all files that have an impl of it or declare it."""
    found = collections.defaultdict(set)
    for text in texts:
        names = set(re.findall(r"\b(?:struct|enum|trait) (\w+)", text)) | set(re.findall(r"^impl\b[^{]*?\b(\w+)(?:<[^{]*>)? \{", text, re.M))
        inside = set(re.findall(r"\bfn (\w+)|\bghost (\w+)|^\s+(?:pub )?(\w+):", text, re.M))
        for name in names:
            found[name] |= {word for group in inside for word in group if word}
    return found


def clauses_of(name, known):
    """The clauses and fields that may be cited of a function."""
    functions, fields, _ = known
    found = set()
    for contract in functions.get(name, ()):
        found |= set(re.findall(r"(?:ensures|requires) (\w+) \{", contract))
        for record in re.findall(r"\b([A-Z]\w+)\b", contract):
            found |= fields.get(record, set())
    return found


def holds(word, name, known):
    """Whether the document may cite the word of that name."""
    functions, fields, types = known
    word, name = word.split("::")[-1], name.split("::")[-1]
    is_home = name in MODULES or pathlib.Path("crates", name).is_dir()
    return word in clauses_of(name, known) or word in fields.get(name, ()) or word in types.get(name, ()) or is_home and word in functions


def of_trust(text):
    """The words in the last column of the tables of TRUST that are of no named function: those of the first table are clauses of
    `headline_law`, those of the second of `run`."""
    for table, name in zip(re.findall(r"(?:^\|.*\n)+", text, re.M), ("headline_law", "run")):
        for line in table.splitlines()[2:]:
            cell = line.strip("| ").split(" | ")[-1]
            if " of " not in cell and "](" not in cell:
                yield from ((word, name) for word in re.findall(WORD, cell))


def citations(text):
    """Each word that is cited of a name, with the name."""
    for it in CITED.finditer(text):
        for word in re.findall(WORD, re.sub(r"\([^)]*\)", "", it[1])):
            yield word, it[4]


def main():
    code, definitions = sources(".rt"), sources(".antt")
    own, whole = records(definitions)
    known = contracts(code), whole, members(code)
    count, wrong = 0, []
    for document in DOCUMENTS:
        text = pathlib.Path(document).read_text()
        for word, name in [*citations(text), *(of_trust(text) if document == DOCUMENTS[0] else ())]:
            if not any(name.split("::")[-1] in it for it in (*known, MODULES)):
                continue
            count += 1
            if not holds(word, name, known):
                wrong.append(f"{document}: {name} has no clause {word}")
    named = set(re.findall(r"`(\w+)`", PROVED.read_text()))
    fields = [(record, field) for record in TOP for field in sorted(own.get(record, ()))]
    wrong += [f"{PROVED}: it does not name the field {field} of {record}" for record, field in fields if field not in named]
    for number, least, what in ((count, LEAST, "citations"), (len(fields), LEAST_FIELDS, "fields")):
        if number < least:
            wrong.append(f"clauses: found {number} {what}, fewer than {least}: does clauses.py still find them?")
    for line in wrong:
        print(line)
    if not wrong:
        print(f"each of the {count} clauses that documents cite is there, and {PROVED} names each of the {len(fields)} fields of {', '.join(TOP)}")
    return 1 if wrong else 0
