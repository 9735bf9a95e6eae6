"""Does each mutant say what it changes and fit its file, and does the gate try each mutant that
tools/agreement/mutants.md names?

The first line of an edit says in words what the edited code does: `# MEANING`. No two edits of a crate
say the same. Each text that an edit replaces is in its file exactly once. This holds also of the mutants
in crates/*/mutants, which only tools/mutants tries. In the tables there each name of an edit is
followed by a checksum of its text, so that an edit that was changed is read again: whether it still has
the meaning of its row."""
import hashlib
import pathlib
import re

DOCUMENT = pathlib.Path("tools/agreement/mutants.md")
# How many mutants there are at least, and how many of them the tables name.
LEAST, LEAST_NAMED = 330, 100


def edits(folder):
    """Each mutant in the folders of this name, by its own name, CRATE/NAME."""
    files = sorted(pathlib.Path("crates").glob(f"*/{folder}/*.edit"))
    return {f"{file.parts[1]}/{file.stem}": file for file in files}


def misfits(known):
    """The edits that replace a text which their file does not have exactly once."""
    for edit in known.values():
        file, text = None, ""
        for line in edit.read_text().splitlines():
            word, _, rest = line.partition(": ")
            if word == "file":
                file = edit.parent.parent / rest.strip()
                text = file.read_text() if file.is_file() else ""
            elif word == "old" and text.count(rest) != 1:
                yield f"{edit}: {file} has its text {text.count(rest)} times, not once: {rest.strip()}"


def meanings(known):
    """The edits without a meaning, and those that say what another of their crate says."""
    seen = {}
    for name, file in known.items():
        meaning = re.match(r"# (\S+ \S.*\S)\n", file.read_text())
        if not meaning:
            yield f"{file}: its first line does not say what it changes, as `# {name.split('/')[1]}` would"
            continue
        before = seen.setdefault((file.parts[1], meaning[1]), name)
        if before != name:
            yield f"{file}: it says what {before} says"


def checksum(file):
    """A checksum of what an edit changes, without its first line."""
    lines = [it for it in file.read_text().splitlines() if not it.startswith("#")]
    return hashlib.sha256("\n".join(lines).encode()).hexdigest()[:8]


def rows():
    """The rows of the tables, with the edits that each names as CRATE/NAME, and their checksums."""
    for line in DOCUMENT.read_text().splitlines():
        if line.startswith("| ") and not line.startswith(("| A mutant", "|---")):
            yield line, re.findall(r"`([a-z0-9_]+/[a-z0-9_]+)`(?: ([0-9a-f]{8})\b)?", line)


def main():
    tried, left_out, count = edits("must-fail"), edits("mutants"), 0
    wrong = [f"{left_out[name]}: must-fail has one of that name" for name in tried.keys() & left_out.keys()]
    known = tried | left_out
    wrong += [*meanings(known), *misfits(known)]
    for line, named in rows():
        if not named:
            wrong.append(f"{DOCUMENT}: a row without an edit: {line}")
        for name, read in named:
            count += 1
            if name not in tried:
                wrong.append(f"{DOCUMENT}: the gate tries no such edit: {name}")
            elif read != checksum(tried[name]):
                wrong.append(
                    f"{DOCUMENT}: {name} is not the text that was read ({read or 'no checksum'}): if it still "
                    f"has the meaning of its row, write {checksum(tried[name])} after its name")
    if len(known) < LEAST or count < LEAST_NAMED:
        wrong.append(f"only {len(known)} mutants were found, and {DOCUMENT} names {count}; there were {LEAST} and {LEAST_NAMED} at least")
    for line in wrong:
        print(line)
    if not wrong:
        print(
            f"each of the {len(known)} mutants says what it changes and fits its file; the gate tries "
            f"{len(tried)}, and {DOCUMENT} names {count} of them")
    return 1 if wrong else 0
