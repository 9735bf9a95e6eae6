"""Does docs/dev/ARCHITECTURE.md show the crates and the calls as they are?

A line of the block under "From main to bytes" names calls and the file, or the crate, that has them: `fn NAME` must be there. The crates
that the page says are used in proofs alone are those whose functions have no body. Each crate of crates.txt has a row in a table.
"""
import pathlib
import re

DOCUMENT = pathlib.Path("docs/dev/ARCHITECTURE.md")
# How many calls and how many crates are compared at least.
LEAST_CALLS, LEAST_CRATES = 45, 45
LINE = re.compile(r"^ *(?:[\w ]+: )?(\S.*?)  +(\w+)(?:/(\w+))?(?:  .*)?$", re.M)


def calls(text):
    """Each call of the block, with the folder and the name of the file that has it (`*` for any)."""
    block = text.split("### From main to bytes", 1)[1].split("```")[1]
    for found in LINE.finditer(block):
        for name in found[1].split(", "):
            if re.fullmatch(r"[\w:]+", name):
                yield name.split("::")[-1], found[2], found[3] or "*"


def sources(crate, file="*"):
    return "\n".join(it.read_text() for it in sorted(pathlib.Path("crates", crate, "src").glob(f"**/{file}.rt")))


def has_laws_alone(crate):
    """Whether the crate has functions, and none of them a body."""
    text = sources(crate)
    count = len(re.findall(r"^ *(?:pub(?:\(crate\))? )?fn ", text, re.M))
    return count > 0 and count == len(re.findall(r"^ *\{\}$", text, re.M))


def main():
    text = DOCUMENT.read_text()
    found = list(calls(text))
    wrong = [f"{crate}/{file} has no fn {name}" for name, crate, file in found if not re.search(rf"\bfn {name}\b", sources(crate, file))]
    crates = re.findall(r"^(\w+):", pathlib.Path("crates.txt").read_text(), re.M)
    table = text.split("\n## The crates\n", 1)[1].split("\n## ", 1)[0]
    rows = {name for cell in re.findall(r"^\| ([^|]*) \|", table, re.M) for name in re.findall(r"`(\w+)`", cell)}
    wrong += [f"no row of a table has the crate {it}" for it in crates if it not in rows]
    wrong += [f"a row has the crate {it}, which is not in crates.txt" for it in sorted(rows - set(crates))]
    said = re.search(r"\*\*In proofs alone\*\* are ([^:]*):", table)
    said = set(re.findall(r"`(\w+)`", said[1])) if said else set()
    alone = {it for it in crates if has_laws_alone(it)}
    wrong += [f"{it} has laws alone, and the page does not say so" for it in sorted(alone - said)]
    wrong += [f"{it} is said to be used in proofs alone, and has code" for it in sorted(said - alone)]
    for number, least, what in ((len(found), LEAST_CALLS, "calls"), (len(crates), LEAST_CRATES, "crates")):
        if number < least:
            wrong.append(f"only {number} {what} were found; there were {least} at least")
    for line in wrong:
        print(f"{DOCUMENT}: {line}")
    if not wrong:
        print(f"{DOCUMENT}: {len(found)} calls are in their files, {len(crates)} crates have a row, {len(alone)} have laws alone")
    return 1 if wrong else 0
