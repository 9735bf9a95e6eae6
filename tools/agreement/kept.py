"""Is each test that tools/agreement/kept.txt lists still there? An entry says what is tested, names a file, or several, and then the
texts that the files must have.

Comments do not count. In files of Rattle, a text counts only within a test, or within a function or table that a test of these files
uses. A text `fn NAME` is a test, with `#[test]` directly above, from which another text of the row is reached.
"""
import pathlib
import re

LIST = pathlib.Path("tools/agreement/kept.txt")
# How many texts the list has at least.
LEAST = 200
TOKEN = re.compile(r'("(?:\\.|[^"\\])*"|\'(?:\\.|[^\'\\])\')|//[^\n]*|/\*.*?\*/', re.S)
ITEM = re.compile(r"^(#\[test\]\n)?(?:pub )?(?:fn|static|const) (\w+)\b.*?(?:[;}]$)(?=\n\n|\n*\Z)", re.M | re.S)


def entries():
    """The entries of the list: what is tested, the files, and the texts that they must have."""
    for entry in LIST.read_text().split("\n\n"):
        lines = [line.partition(": ") for line in entry.splitlines() if line and not line.startswith("#")]
        of = {word: [it for key, _, it in lines if key == word] for word in ("what", "file", "text")}
        if lines:
            well_formed = lines[0][0] == "what" and len(of["what"]) == 1 and of["file"] and of["text"] and {it[0] for it in lines} <= set(of)
            yield of["what"][0] if of["what"] else lines[0][2], [pathlib.Path(it) for it in of["file"]], of["text"], bool(well_formed)


def without_comments(file):
    text = file.read_text()
    if file.suffix == ".rt":
        return TOKEN.sub(lambda found: found[1] or "", text)
    return re.sub(r"^\s*#.*$", "", text, flags=re.M) if text.startswith("#!") else text


def reached(names, items):
    """The text of these items and of all that they use."""
    seen, waiting = {}, list(names)
    while waiting:
        name = waiting.pop()
        if name in items and name not in seen:
            seen[name] = items[name]
            waiting += re.findall(r"\w+", items[name])
    return "\n\n".join(seen.values())


def faults(files, texts):
    """What is wrong with an entry whose files are there."""
    code = "\n\n".join(map(without_comments, files))
    others = [it for it in texts if not re.fullmatch(r"fn \w+", it)]
    if not others:
        return ["the entry has no text to look for but tests"]
    if files[0].suffix != ".rt":
        return [f"{text} is not there" for text in others if text not in code]
    items = {found[2]: found[0] for found in ITEM.finditer(code)}
    tests = {found[2] for found in ITEM.finditer(code) if found[1]}
    named = [it[3:] for it in texts if it not in others]
    used = {name: reached([name], items) for name in named}
    wrong = [f"fn {name} is not a test" for name in named if name not in tests]
    wrong += [f"fn {name} has none of the other texts" for name in named if not any(it in used[name] for it in others)]
    whole = reached(tests, items)
    return wrong + [f"no test uses {text}" for text in others if text not in whole]


def main():
    wrong, count = [], 0
    for what, files, texts, is_well_formed in entries():
        count += len(texts)
        lost = [file for file in files if not file.is_file()]
        found = [f"there is no file {it}" for it in lost] if lost else faults(files, texts) if files else []
        found += [] if is_well_formed else ["the entry is not one line `what`, and then lines `file` and `text`"]
        wrong += [f"{what}: {', '.join(map(str, files))}: {it}" for it in found]
    if count < LEAST:
        wrong.append(f"only {count} tests were found; there were {LEAST} at least")
    for line in wrong:
        print(f"{LIST}: {line}")
    if not wrong:
        print(f"each of the {count} tests that {LIST} lists is there")
    return 1 if wrong else 0
