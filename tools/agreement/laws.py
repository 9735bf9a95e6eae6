"""Does docs/dev/PROVED.md name each public law? A law is a public function of a module `laws`, or one
whose name ends in `_law`."""
import pathlib
import re

DOCUMENT = pathlib.Path("docs/dev/PROVED.md")
# How many public laws there are at least.
LEAST = 150


def laws():
    """Each public law, as (CRATE, NAME)."""
    for file in sorted(pathlib.Path("crates").glob("*/src/**/*.rt")):
        in_laws = file.parts[3:] == ("laws.rt",) or file.parts[3] == "laws"
        ending = "" if in_laws else "_law"
        for name in re.findall(rf"^ *pub fn ([a-z0-9_]*{ending})\b", file.read_text(), re.MULTILINE):
            yield file.parts[1], name


def main():
    named = set(re.findall(r"\w+", DOCUMENT.read_text()))
    known = list(laws())
    wrong = [f"it does not name the law {name} of {crate}" for crate, name in known if name not in named]
    if len(known) < LEAST:
        wrong.append(f"only {len(known)} public laws were found; there were {LEAST} at least")
    for line in wrong:
        print(f"{DOCUMENT}: {line}")
    if not wrong:
        print(f"{DOCUMENT} names each of the {len(known)} public laws")
    return 1 if wrong else 0
