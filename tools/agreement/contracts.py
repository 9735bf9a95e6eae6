"""The clauses of the laws of the crate `theorems`, and the premises in them, as text."""
import pathlib
import re

LAWS = pathlib.Path("crates/theorems/src")
TOKEN = re.compile(r"[\w.'-]+|[^\s\w]")
BINDER = re.compile(r"\([\w ,]+ : [^()]*(\([^()]*\)[^()]*)*\)(\s*\([\w ,]+ : [^()]*(\([^()]*\)[^()]*)*\))*")


def clauses():
    """The text of each clause, by `LAW.CLAUSE`, or by `LAW` where the one clause has no name."""
    found = {}
    for file in sorted(LAWS.glob("*.rt")):
        for law, contract in re.findall(r"^pub fn ([a-z0-9_]+_law)\b(.*?)^\{", file.read_text(), re.MULTILINE | re.DOTALL):
            for part in re.split(r"^ {4}ensures ", contract, flags=re.MULTILINE)[1:]:
                name, text = re.match(r"(\w+ )?\{(.*)\}", part, re.DOTALL).groups()
                found[f"{law}.{name.strip()}" if name else law] = " ".join(text.split())
    return found


def split(text, sign):
    """The parts of a formula between the signs that are in no parentheses."""
    parts, depth = [""], 0
    for it in text:
        depth += (it in "([{") - (it in ")]}")
        if it == sign and not depth:
            parts.append("")
        else:
            parts[-1] += it
    return [it.strip() for it in parts]


def bare(text):
    """A formula without the parentheses around the whole of it."""
    text = text.strip()
    while text.startswith("(") and text.endswith(")") and not BINDER.fullmatch(text) and len(split(text[:-1], ")")) == 1:
        text = text[1:-1].strip()
    return text


def parts_of(text, sign):
    """The parts of a formula between signs, bare, without the variables that they bind."""
    return [bare(it) for it in split(bare(text), sign) if not BINDER.fullmatch(it)]


def premises_of(text):
    """The premises of a clause, and for each side of an equivalence, and each premise within the conclusion, those of that part."""
    *premises, end = parts_of(text, "→")
    sides = split(end, "↔")
    if len(sides) == 2:
        return premises, [parts_of(it, "×") for it in sides]
    return premises, [parts_of(it, "→")[:-1] for it in parts_of(end, "×") if len(split(it, "→")) > 1]


def has(formula, name):
    """Whether a formula has the words of a name, one after another."""
    words, wanted = TOKEN.findall(formula), TOKEN.findall(name)
    return any(words[it:it + len(wanted)] == wanted for it in range(len(words) - len(wanted) + 1))
