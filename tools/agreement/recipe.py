"""Does the recipe for a command in docs/dev/ARCHITECTURE.md name each file that a command has a place in, and only files that are there?

The command is `analyse6`, whose name is a word of its own. A step names a file by its path or a folder above it, a document by its name,
and a file of a crate by the crate with the file's path or name in it.
"""
import os
import pathlib
import re

DOCUMENT = pathlib.Path("docs/dev/ARCHITECTURE.md")
COMMAND = re.compile(rb"\banalyse6\b", re.I)

# How many files name the command at least, but for the exceptions.
LEAST = 35
# Files that name the command and are none of the recipe's, each with the reason.
EXCEPTIONS = {
    "crates/bench_top/src/laws.rt": "a comment",
    "crates/report_text/mutants/forgets_the_graph6_text.edit": "a mutant of its last line",
    "tests/edge_trials/limits.py": "the limits of graph6",
    "tools/agreement/recipe.py": "this file",
    "tools/agree_docs": "what this file does",
    "tools/README.md": "the same",
    "tools/selftest": "faults planted in what this file compares",
}


def users():
    """The files that name the command, but for the document and what checks leave behind."""
    for folder, below, names in os.walk("."):
        below[:] = [it for it in below if it not in (".git", "out", "__pycache__")]
        for path in (pathlib.Path(folder, name) for name in names):
            if path != DOCUMENT and path.is_file() and COMMAND.search(path.read_bytes()):
                yield path


def is_named(path, step):
    quoted = re.findall(r"`([^`]+)`", step)
    if path.parts[0] == "crates":
        return path.parts[1] in quoted and not {"/".join(path.parts[2:]), path.stem}.isdisjoint(quoted)
    is_there = any(it == str(path) or it.endswith("/") and str(path).startswith(it) for it in quoted)
    return is_there or path.suffix == ".md" and re.search(rf"\b{path.stem}\b", step) is not None


def lost(step):
    """The files that a step names and that are in none of its crates."""
    quoted = re.findall(r"`([^`]+)`", step)
    for name in quoted:
        if re.match(r"(src|specs|proofs)/", name) and not any(pathlib.Path("crates", it, name).exists() for it in quoted):
            yield name


def main():
    section = DOCUMENT.read_text().split("\n### A command\n")[1].split("\n##")[0]
    steps = re.findall(r"^[0-9]+\. .*$", section, re.M)
    found = list(users())
    unnamed = [path for path in found if str(path) not in EXCEPTIONS and not any(is_named(path, it) for it in steps)]
    idle = sorted(set(EXCEPTIONS) - set(map(str, found)))
    wrong = [f"the recipe for a command does not name {path}, which names analyse6" for path in unnamed]
    wrong += [f"the recipe for a command names {name}, which is not there" for step in steps for name in lost(step)]
    wrong += [f"{path} does not name analyse6: drop it from the exceptions of tools/agreement/recipe.py" for path in idle]
    if len(found) - len(EXCEPTIONS) < LEAST:
        wrong.append(f"only {len(found) - len(EXCEPTIONS)} files that name analyse6 were found; there were {LEAST} at least")
    for line in wrong:
        print(f"{DOCUMENT}: {line}")
    if not wrong:
        print(f"{DOCUMENT}: the recipe for a command names {len(found) - len(EXCEPTIONS)} files that name analyse6")
    return 1 if wrong else 0
