"""Paths that go through a crate that passes on what stands beneath it, and the same paths from home."""
import pathlib
import re

FROM_BELOW = re.compile(r"\bRattle\.\w+\.(specs|proofs)\.from_(\w+)")
IN_CODE = re.compile(r"(?<![\w:])(\w+)::(\w+)::")
CODE_FROM_BELOW = re.compile(r"\b\w+::(specs|proofs)::from_(\w+)")


def crates():
    """The crates of crates.txt, bottom up."""
    lines = pathlib.Path("crates.txt").read_text().splitlines()
    return [line.split(":")[0].split()[0] for line in lines if line.strip() and not line.startswith("#")]


def from_home(text, names):
    """A text in which each path through a crate that passes on begins at the crate that declares the name; `names` are the crates."""
    text = CODE_FROM_BELOW.sub(r"\2::\1", FROM_BELOW.sub(r"Rattle.\2.\1", text))
    return IN_CODE.sub(lambda it: f"{it[2]}::" if it[1] in names and it[2] in names else it[0], text)
