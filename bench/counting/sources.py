"""What the sources and the completions say of the tables of bench/counts."""
import glob
import os
import re

from .facts import MADE, MAKERS, OTHERS

TOP = os.path.dirname(os.path.dirname(os.path.dirname(os.path.abspath(__file__))))


def needed():
    """The crates below the programs."""
    below, found, todo = {}, set(), ["mcg", "mcg6"]
    with open(os.path.join(TOP, "crates.txt")) as file:
        for line in file:
            name, _, rest = line.partition(":")
            below[name] = rest.split()
    while todo:
        name = todo.pop()
        if name in below and name not in found:
            found.add(name)
            todo += below[name]
    return found


FUNCTION = re.compile(
    r"^impl(?:<[^>]*>)? (?:\w+(?:<[^>]*>)? for )?(\w+).*\{"
    r"|^(\})"
    r"|^( *)(?:pub(?:\(crate\))? )?fn (\w+)[^(]*\(((?:[^()]|\([^()]*\))*)\)(?:\s*-> *([^{\n]*))?",
    re.M,
)


def functions():
    """The functions of these crates: name, parameters and result."""
    for crate in sorted(needed()):
        for path in sorted(glob.glob(os.path.join(TOP, "crates", crate, "src", "*.rt"))):
            module, owner = os.path.basename(path)[:-3], ""
            with open(path) as file:
                text = file.read()
            for found in FUNCTION.finditer(text):
                if found[4]:
                    inner = owner if found[3] else ""
                    yield f"{crate}::{module}::{inner}{found[4]}", found[5], found[6] or ""
                else:
                    owner = found[1] + "::" if found[1] else ""


def unlisted(compared):
    """What the tables and the sources do not say both."""
    listed = {name for makers in MAKERS.values() for name in makers} | set(OTHERS)
    known = set()
    for name, given, result in functions():
        known.add(name)
        compared["functions of the sources"] += 1
        # what is returned by a reference was there before
        result = re.sub(r"&('\w+ )?\[?(Option<)?\w+", "", result)
        makes = re.search(rf"\b({'|'.join(MADE)})\b", result)
        of_graph = re.search("Graph|Covered|Facts|Pairs|rows|self|Place|Bipartite", given)
        compared["functions that return facts"] += bool(makes and of_graph)
        if makes and of_graph and name not in listed:
            yield f"{name} returns {makes[1]} and is in no table of bench/counts"
    compared["functions of the tables"] += len(listed)
    for name in sorted(listed - known):
        yield f"{name} is not in the sources"


def unasked(words, compared):
    """The words of the completions, which name all commands, that no call has."""
    for program in ("mcg", "mcg6"):
        path = os.path.join(TOP, "share", "bash-completion", "completions", program)
        with open(path) as file:
            lists = re.findall(r"(?:-W |commands=)'([^']*)'", file.read())
        for word in " ".join(lists).split():
            compared["words of the completions"] += 1
            begun = word.endswith("=") and any(own.startswith(word) for own in words[program])
            if not word.startswith("--") and word not in words[program] and not begun:
                yield f"no call has the word {word} of {program}"
