"""Has each message of the fronts a case in tests/front, and does its wording stand in one place?

The texts are the constants of crates/front_words/src/texts.rt. Each must be cited by name in a function and in a definition there or
in a front, and `all_texts`, of which `texts_law` speaks, must list them in their order. No other literal of front_words and the fronts
has words, in code or in definitions, but the versions and `READ`, which are read or are names.

Each line of a text, the first of a version, and each line of what command_table says of missing and wrong arguments must be in what some case of
tests/front.cases expects, or in tests/front itself. It lists each that is in none, and ends with 1 if there is any.
"""
import glob
import pathlib
import re

import clauses

TEXTS, LIST = "crates/front_words/src/texts.rt", "crates/front_words/specs/Texts.antt"
VERSIONS, TABLE = "crates/front_words/src/table.rt", "crates/command_table/src/table.rt"
# The texts that no run says, each with the clauses that exclude it: words for a kind of error that a format does not have; for a move
# whose two shores cross, since those of a decomposition do not; and for a header where the numbers of the graph are not known, since a
# graph file that was read has them.
UNSAID = {
    "FAULT_OTHER": ["fault of read_text", "fault of read_graph6"],
    "STUCK_CROSSING": ["nested of stuck_fault"],
    "HEADER_TREE": ["stops_on of load"],
    "HEADER_EARS": ["stops_on of load"],
    "HEADER_MOVES": ["stops_on of load"],
}
# What both programs say of themselves: each must have a case of it.
OF_BOTH = ["LOST", "NOTHING_WRITTEN"]
# What is read, and names.
READ = {"mcg", "mcg6", "MCG_QUIET", "--help", "help", "--version", "cut", "p mcg", ">>graph6<<", ">>sparse6<<", ">>digraph6<<", ">>planar_code<<"}
# How many texts, and how many lines of all that is said, are compared at least.
LEAST_TEXTS, LEAST = 120, 135
# A comment, a literal of text or bytes, and a letter in quotes, which is no text.
TOKEN = re.compile(r"""(?://|--)[ /!][^\n]*|b?"((?:[^"\\]|\\.)*)"|b?'(?:\\.|[^'\\])'""", re.S)
CONSTANT = re.compile(r'^pub const (\w+): &str =\s*"((?:[^"\\]|\\.)*)";$', re.S | re.M)


def read(path):
    return pathlib.Path(path).read_text()


def plain(literal):
    """The text of a literal, but for line feeds and bytes by their numbers."""
    return re.sub(r"\\\n\s*|\\x[0-9a-f]{2}", "", literal).replace('\\"', '"').replace("\\\\", "\\")


def constants(path):
    """The texts of a file by their names."""
    return {name: plain(text) for name, text in CONSTANT.findall(read(path))}


def literals(source):
    """The literals of a source."""
    return [plain(it[1]) for it in TOKEN.finditer(source) if it[1] is not None]


def has_words(text):
    return re.search("[a-zA-Z]{2}", text) is not None


def lines_of(texts):
    """The lines of the texts that have words."""
    return {it.strip() for text in texts for it in re.split(r"\\n|\n", text) if has_words(it)}


def arguments(table):
    """What the table of commands says of arguments that must be there: what is missing, and what is wrong with one."""
    required = re.sub(r"optional: &\[.*?\],\n        line:.*?\n", "", table[:table.index("const USAGE")], flags=re.S)
    return [it for it in literals(required) if " " in it]


def misplaced(texts):
    """What is wrong with the places of the texts."""
    listed = re.findall(r"\btexts\.(\w+)\.now ∷", read(LIST))
    if listed != list(texts):
        yield f"{LIST} does not list the texts of {TEXTS} in their order: {sorted(set(listed) ^ set(texts)) or 'another order'}"
    folders = ["front_words", *(pathlib.Path(it).name for it in glob.glob("crates/*front_top"))]
    for folder, form, own in (("src", r"\btexts::(\w+)", {TEXTS, VERSIONS}), ("specs", r"\btexts\.(\w+)\.now", {LIST})):
        files = [it for crate in folders for it in glob.glob(f"crates/{crate}/{folder}/**/*.*t*", recursive=True) if it not in own]
        cited = {name for it in files for name in re.findall(form, read(it))}
        yield from (f"no file of {folder} cites the text {name}" for name in texts if name not in cited)
        for it in files:
            yield from (f"{it} has words that are no constant of {TEXTS}: {text}"
                        for text in literals(read(it)) if has_words(text) and text not in READ)


def excluded(texts):
    """What is wrong with the texts that no run says."""
    functions = clauses.contracts(clauses.sources(".rt"))
    for name, cited in UNSAID.items():
        if name not in texts:
            yield f"there is no text {name} that is not said"
        for clause, function in (it.split(" of ") for it in cited):
            if not any(f"ensures {clause} {{" in it for it in functions.get(function, ())):
                yield f"{function} has no clause {clause}, which is to exclude the text {name}"


def main():
    texts = constants(TEXTS)
    said = lines_of([*(text for name, text in texts.items() if name not in UNSAID), *(it.splitlines()[0] for it in constants(VERSIONS).values()),
                     *(f"{program}{texts.get(it)}" for it in OF_BOTH for program in ("mcg", "mcg6")), *arguments(read(TABLE))])
    cases = "\n".join(it[2:] for it in read("tests/front.cases").splitlines() if it[:2] in ("> ", "! ")) + read("tests/front")
    wrong = [f"no case of tests/front has: {it}" for it in sorted(said) if it not in cases]
    wrong += [*misplaced(texts), *excluded(texts)]
    for number, least, what in ((len(texts), LEAST_TEXTS, "texts"), (len(said), LEAST, "lines of texts")):
        if number < least:
            wrong.append(f"only {number} {what} were found; there were {least} at least")
    print("\n".join(wrong) if wrong else f"messages: each of {len(said)} lines is in a case of tests/front, and each of {len(texts)} texts stands in one place")
    return 1 if wrong else 0
