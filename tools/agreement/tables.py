"""Do the documents, the manual pages and the completions say what the fronts of mcg and mcg6 say?

The tables of commands and the pages of the commands are in crates/command_table/src; the words for errors, which are constants, the
functions that choose among them, and the versions are in crates/front_words/src. The rows of the usage of mcg are compared with the
table of README, the synopsis of its manual page and its completion for bash; those of mcg6, with its properties, with its manual page,
its completion, the table of FORMATS and the words that mcg6_top reads; each page with the rows of its command; the words for kinds of
errors with the table of FORMATS and with python/mcg/errors.py; the headers and limits with the sections of FORMATS; the versions with VERSION; and the logic that they name with README, CONTRIBUTING and, where the kit is
there, what `rt version` prints. The name of a kit, which another machine has under another, stands in the records of GATE alone. It lists each that differs, and ends with 1 if
there is any. It counts what it compared: fewer than `LEAST` of a kind is an error too, since then it has looked for something that the
sources have in another form by now.
"""
import collections
import glob
import re
import shutil
import subprocess

import messages

# The formats by the names that the code gives them, with their sections in FORMATS.
SECTIONS = {"Graph": "Graph format", "Tree": "Derivation format", "Picks": "Pick format", "Ears": "Ear format", "Moves": "Move format"}
# The abbreviations of the usage that the manual page writes out.
WRITTEN_OUT = {"first | last | balanced": "ORDER"}
# The files that name no kit.
KITLESS = ("*.md", "docs/**/*.md", "share/man/man1/*", "crates/front_words/src/*.rt", "crates/command_table/src/*.rt")
# What is compared, and at least how many of each.
LEAST = {"rows": 18, "pages": 17, "arguments": 20, "ranges": 2, "kinds": 30, "headers": 6, "limits": 7, "versions": 2, "logics": 4, "files": 50}
# The text for a kind of error that a format does not have.
UNSAID = "FAULT_OTHER"
compared = collections.Counter()
wrong = []


def read(path):
    with open(path) as it:
        return it.read()


def same(what, one, other):
    if one != other:
        wrong.append(f"{what}:\n    the front: {one}\n    there:     {other}")


def constant(source, name):
    found = re.search(rf'const {name}: &str =\s*"(.*?)";', source, re.S)
    if not found:
        wrong.append(f"there is no constant {name}")
    return found[1] if found else ""


def arms(source, function, texts):
    """The texts of a function's match, by what stands before each; each arm has the name of a constant."""
    body = re.search(rf"^(?:pub )?fn {function}\(.*?^}}", source, re.S | re.M)[0]
    found = {}
    for patterns, name in re.findall(r"^        ([\w:| \n]+?)\s*=>\s*texts::(\w+),$", body, re.M):
        if name not in texts:
            wrong.append(f"{function} has the text {name}, which is not there")
        elif name != UNSAID:
            found.update({it.split("::")[-1].strip(): texts[name] for it in patterns.split("|")})
    return found


def synopsis(page):
    """The rows of the manual page's synopsis, as the usage has them."""
    rows = re.findall(r"^\.Nm\n\.Cm (.*)$", page[page.index(".Sh SYNOPSIS"):page.index(".Sh DESCRIPTION")], re.M)
    found = []
    for row in rows:
        for words, name in WRITTEN_OUT.items():
            row = row.replace(f"Cm {words}", f"Ar {name.lower()}")
        name, *parts = re.split(r" ?(?=\b(?:Ar|Cm) )", row)
        words = [(word.upper() if part.startswith("Ar ") else word) for part in parts for word in part.split()[1:]]
        found.append(" ".join([name, *words]))
    return found


def completion_places(text):
    """The last place of a file for each command, as the completion has it."""
    places = {}
    for names, place in re.findall(r"^    ([a-z0-9 |]+)\) echo (\d) ;;$", text, re.M):
        places.update({name: int(place) for name in names.split(" | ")})
    return places


def compare_commands(rows, readme):
    same("the commands of README", rows, re.findall(r"^\| `([a-z0-9]+ [^`]*)` \|", readme[readme.index("## Commands"):], re.M))
    same("the synopsis of the manual page", rows, synopsis(read("share/man/man1/mcg.1")))
    completion = read("share/bash-completion/completions/mcg")
    words = re.search(r"local commands='(.*)'", completion)[1].split()
    same("the commands of the completion", sorted({row.split()[0] for row in rows}), sorted(it for it in words if it[0] != "-"))
    places = {}
    for row in rows:
        files = [at for at, word in enumerate(row.split(), 1) if word.isupper() and word not in ("ORDER", "SEED", "PIECES")]
        if files and not row.startswith("decompose "):
            places[row.split()[0]] = files[-1]
    same("the files of the completion", places, {name: at for name, at in completion_places(completion).items() if name in places})
    named = set(re.findall(r'"([a-z0-9]+)"', read("crates/bench_tasks/src/words.rt"))) - {"first", "last", "balanced"}
    same("the commands of bench_tasks", sorted({row.split()[0] for row in rows}), sorted(named))


def compare_faults(faults, texts, formats):
    of_line, of_graph6 = (arms(faults, it, texts) for it in ("line_fault", "graph6_fault"))
    kinds = {**of_graph6, **of_line}
    table = re.findall(r"^\| (\d+) \| ([A-Z]\w+) \| (.*?) \|$", formats[:formats.index("## Graph format")], re.M)
    same("the kinds of FORMATS", kinds, {name: words for _, name, words in table})
    faults_of_python = re.findall(r'^    (\d+): "(.*)",$', read("python/mcg/errors.py"), re.M)
    same("the kinds of errors.py", {number: words for number, _, words in table}, dict(faults_of_python))
    compared["kinds"] += len(kinds) + len(faults_of_python)
    for role, words in arms(faults, "header_note", texts).items():
        for header in re.findall(r"\b[a-z] mcg2?(?: [A-Z])+", words):
            compared["headers"] += 1
            if f"`{header}`" not in section(formats, role):
                wrong.append(f"the header `{header}` is not in the section of {role} in FORMATS")
    for role, words in arms(faults, "limit_note", texts).items():
        for number in re.findall(r"\b\d[\d,]*\b", words):
            compared["limits"] += 1
            if not re.search(rf"(?<![\d,]){number}(?![\d,])", section(formats, role)):
                wrong.append(f"the limit {number} is not in the section of {role} in FORMATS")


def section(formats, role):
    """The sections of FORMATS on a format."""
    parts = re.split(r"(?m)^## ", formats)
    found = "".join(it for it in parts if it.startswith(SECTIONS.get(role, "graph6")))
    if not found:
        wrong.append(f"FORMATS has no section on {role}")
    return found


def list_words(usage, name):
    """The words that a name in the usage of mcg6 stands for."""
    found = re.search(rf"{name} is (.*)", usage)[1]
    return re.split(r", | or ", found)


def list_synopsis(page):
    """The rows of the synopsis of mcg6, as its usage has them, and the properties that the page writes out."""
    text = page[page.index(".Sh SYNOPSIS"):page.index(".Sh DESCRIPTION")]
    rows, properties = [], []
    for part in text.split(".Nm\n")[1:]:
        (_, name), *lines = re.findall(r"^\.(Cm|Op|Ar) (.*)$", part, re.M)
        words = [name]
        for kind, line in lines:
            if line in ("Ar file", "file"):
                words.append("[FILE]" if kind == "Op" else "FILE")
            elif line == "Cm skip":
                words.append("[skip]")
            elif line == "Cm first | last | balanced":
                words.append("[ORDER]")
            else:
                words.append("WHAT")
                properties = [re.sub(r"= Ns Ar k", "=K", it.replace("Cm ", "")) for it in line.split(" | ")]
        rows.append(" ".join(words))
    return rows, properties


def compare_lists(usage, formats):
    """Compares the table of mcg6."""
    rows = [it[2:31].rstrip() for it in usage.splitlines() if it.startswith("  ")]
    orders, properties = list_words(usage, "ORDER"), list_words(usage, "WHAT")
    same("the synopsis and the properties of the manual page of mcg6", (rows, properties), list_synopsis(read("share/man/man1/mcg6.1")))
    completion = read("share/bash-completion/completions/mcg6")
    names = sorted(row.split()[0] for row in rows)
    lists = [it.split() for it in re.findall(r"compgen -W '(.*?)'", completion)]
    same("the commands of the completion of mcg6", names, sorted(it for it in lists[0] if it[0] != "-"))
    same("the properties of the completion of mcg6", [it.replace("=K", "=") for it in properties], lists[1])
    same("the orders of the completion of mcg6", orders, lists[2])
    part = formats[formats.index("## The lines of `mcg6`"):]
    same("the commands of FORMATS", names, sorted(re.findall(r"^\| `mcg6 (\w+)`", part, re.M)))
    for name, words in (("leaves", orders), ("select", properties)):
        line = re.search(rf"^\| `mcg6 {name}` and ([^|]*)", part, re.M)[1]
        same(f"the words of `{name}` in FORMATS", words, re.findall(r"`([^`]*)`", line)[:len(words)])
    plan = read("crates/mcg6_top/src/plan.rt")
    same("the properties of mcg6_top", sorted(properties), sorted(
        [*re.findall(r'"(\w+)" => Some\(Property::', plan), *(f"{it}K" for it in re.findall(r'strip_prefix\(b"(\w+=)"\)', plan))]))
    found = {*re.findall(r'"(\w+)" => Some\((?:Query::|file)', plan), *re.findall(r'"(\w+)" => \w+_named\(second\)', plan)}
    same("the commands of mcg6_top", names, sorted(found))
    return rows


class Row:
    """A row of a table of commands: its command, its line, and what the table has of its words."""

    def __init__(self, source):
        self.command, self.line = (re.search(rf'{name}: "(.*)",\n', source)[1] for name in ("command", "line"))
        words, optional = source[source.index("words: "):source.index("line: ")].split("optional: ")
        self.arguments = re.findall(r'RowWord::(?:File|OneOf|Number)\(\s*"(\w+)"', words + optional)
        self.skips = 'Literal("skip")' in words + optional
        numbers = re.findall(r'Number\(\s*"(\w+)",\s*([\d_]+),\s*([\d_]+),\s*"(.*)",\s*"(.*)",', words + optional)
        self.numbers = [(name, (low.replace("_", ""), high.replace("_", "")), (note, need)) for name, low, high, note, need in numbers]
        choices = re.findall(r'OneOf\(\s*"(\w+)",\s*&\[(.*?)\],\s*&\[(.*?)\],\s*"(.*)",\s*"(.*)",', words + optional, re.S)
        self.choices = [(name, re.findall(r'"(.*?)"', one + other), note) for name, one, other, note, _ in choices]


def rows_of(table, name):
    """The rows of the table of that name."""
    part = re.search(rf"static {name}: \[Row; \d+\] = \[\n(.*?)^\];", table, re.S | re.M)[1]
    return [Row(it) for it in re.findall(r"^    Row \{\n(.*?)^    \},", part, re.S | re.M)]


def listed(sentence):
    """The words that a sentence lists before it says more of them, a number behind a sign of equality left out."""
    plain = re.split(", and |, as for ", re.sub(r"\(.*?\)", "", sentence))[0]
    return [it for it in re.findall(r"[a-z]+=?", plain) if it not in ("or", "a", "number", "of", "bricks", "braces", "as")]


def compare_page(page, rows, usage, program):
    """Compares the page of a command with its rows: the arguments, the words that one may be, and the ranges of numbers."""
    command = rows[0].command
    what = f"on the page of {command} of {program}"
    head, *parts = page.split("\n\n")
    body, example = " ".join(parts[:-1]).replace("\n", " "), parts[-1]
    same(f"the lines {what}", "".join(it.line.replace("\\n", "\n") for it in rows), f"{head}\n")
    same(f"the arguments {what}", sorted({it for row in rows for it in row.arguments}), sorted(set(re.findall(r"\b[A-Z]{2,}\d?\b", body))))
    compared["arguments"] += len({it for row in rows for it in row.arguments})
    same(f"`skip` {what}", any(row.skips for row in rows), "With skip" in body)
    same(f"the example {what}", f"Example: {program} ", example[:len(f"Example: {program} ")])
    if not re.search(rf"\b{program} {command} ", example):
        wrong.append(f"the example {what} does not run it")
    numbers = [it for row in rows for it in row.numbers]
    compared["ranges"] += len(numbers)
    same(f"the ranges {what}", [(name, *range) for name, range, _ in numbers], re.findall(r"\b([A-Z]+), (\d+) to (\d+),", body))
    same(f"all ranges {what}", [range for _, range, _ in numbers], re.findall(r"\b(\d+) to (\d+)\b", body))
    for name, range, texts in numbers:
        found = [it for text in texts for it in re.findall(rf"\b{name}\b.*?(\d+) to (\d+)", text)]
        same(f"the ranges of {name} in its row", [range] * len(found), found)
    for row in rows:
        for note in (*(texts[0] for _, _, texts in row.numbers), *(it[2] for it in row.choices)):
            if f"\n{note}\n" not in usage:
                wrong.append(f"the usage of {program} does not have the line: {note}")
        for name, words, note in row.choices:
            sentence = re.search(rf"\b{name} is ([^.;]*)", body)
            same(f"the words of {name} {what}", words, listed(sentence[1]) if sentence else [])
            same(f"the words of {name} in its row", words, listed(note.replace("=K", "=")[len(f"{name} is "):]))


def compare_pages(table):
    """Compares the page of each command with its rows, and returns how many pages there are."""
    count = 0
    for program, name, usage, file in (("mcg", "ROWS", "USAGE", "pages"), ("mcg6", "LIST_ROWS", "LIST_USAGE", "list_pages")):
        rows, pages = rows_of(table, name), read(f"crates/command_table/src/{file}.rt")
        commands = list(dict.fromkeys(it.command for it in rows))
        same(f"the pages of {program}", commands, [it.lower() for it in re.findall(r'^pub const (\w+): &str =\s*"', pages, re.M)])
        for command in (it for it in commands if f"const {it.upper()}:" in pages):
            compare_page(constant(pages, command.upper()), [it for it in rows if it.command == command], constant(table, usage), program)
        count += len(commands)
    return count


def compare_logic(program, logic):
    """Compares the line of a program on the logic with the documents that name it, and with the kit, if it is there."""
    for document in ("README.md", "CONTRIBUTING.md"):
        names = re.findall(r"logic `?([0-9a-f]{16})\b", read(document))
        compared["logics"] += len(names)
        same(f"the logic of {document}, and that of {program}", [logic] * max(len(names), 1), [f"logic {it}" for it in names])
    if shutil.which("rt"):
        compared["logics"] += 1
        told = subprocess.run(["rt", "version"], capture_output=True, text=True, check=False).stdout.split()
        same(f"the logic of `rt version`, and that of {program}", logic, " ".join(told[-2:]))


def main():
    table, faults = read("crates/command_table/src/table.rt"), read("crates/front_words/src/faults.rt")
    versions = read("crates/front_words/src/table.rt")
    formats, readme = read("docs/FORMATS.md"), read("README.md")
    rows = [re.split("  +", it)[1] for it in constant(table, "USAGE").splitlines() if it.startswith("  ")]
    compare_commands(rows, readme)
    rows += compare_lists(constant(table, "LIST_USAGE"), formats)
    compared.update(rows=len(rows), pages=compare_pages(table))
    compare_faults(faults, messages.constants(messages.TEXTS), formats)
    for name, which in (("mcg", "VERSION"), ("mcg6", "LIST_VERSION")):
        compared["versions"] += 1
        version, logic = constant(versions, which).splitlines()
        same(f"VERSION, and what {name} says", version, f"{name} {read('VERSION').strip()}")
        compare_logic(name, logic)
    for path in (it for form in KITLESS for it in glob.glob(form, recursive=True) if it != "docs/dev/GATE.md"):
        compared["files"] += 1
        if re.search(r"rattle-kit-\d", read(path)):
            wrong.append(f"{path} names a kit")
    wrong.extend(f"compared {compared[it]} {it}, fewer than {least}: does tables.py still find them?" for it, least in LEAST.items() if compared[it] < least)
    counted = ", ".join(f"{compared[it]} {it}" for it in LEAST)
    print("\n".join(wrong) if wrong else f"tables: {counted}: the words of the fronts agree with the documents")
    return 1 if wrong else 0
