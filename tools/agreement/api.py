"""Does each public function that can fail, or that takes more than constant time, say its errors and its cost?

The crates are those that docs/LIBRARY.md names and those that a program calls through them. A function is public if lib.rt passes it on, or
the type whose method it is. It can fail if it returns a `Result`; its doc then names each error by its type, or by the names of its cases.
It takes more than constant time if it takes the allocator, if its body has a loop or a call on a whole list, or if it calls such a function.
Its cost is a bound O(..), `constant time`, or that of another call (`Costs what .. costs`).
"""
import pathlib
import re
import typing

CRATES = """listed vset_core line_text graph_core grow_gen match_core allowed_edges graph_facts gallai_edmonds barrier_kit matching_digraph
    separation_kit quick_kinds contraction flow_core tree_core tight_cuts leaf_kinds decomposer tree_check uncross ear_core graph_text
    graph6_text tree_text move_text ear_text report_text""".split()

LEAST = 180
FUNCTION = re.compile(r"^( *)(pub |pub\(crate\) |)(?:const |ghost )?fn (\w+)")
LONG = re.compile(r"\b(?:while|for|loop)\b|\bvec!|\bformat!|\.(?:iter|map|filter|collect|split|chunks|extend_from_slice|to_vec)\(")
COST = re.compile(r"O\([^()]*(?:\([^()]*\)[^()]*)*\)|constant time|[Cc]osts what `[\w:]+`")


class Function(typing.NamedTuple):
    place: str
    name: str
    owner: str
    is_public: bool
    doc: str
    head: str
    body: str


def head_end(lines, start, indent):
    """The last line of a function's head: the one with its first brace."""
    for i in range(start, len(lines)):
        line = lines[i]
        is_own = i == start or line.startswith((indent + ")", indent + "{"))
        if is_own and line.endswith(("{", "{}")) or line.endswith(";") and i == start:
            return i
        if i > start and (line == indent + "}" or line.endswith(" {}")):
            return i
    return start


def functions(path):
    """The functions of a file, each with its doc, the head with its clauses, and its body."""
    lines = path.read_text().splitlines()
    owner = ""
    for i, line in enumerate(lines):
        opening = re.match(r"impl(?:<[^{]*?>)? (?:.* for )?(\w+)", line)
        owner = opening[1] if opening else "" if line == "}" else owner
        found = FUNCTION.match(line)
        if not found:
            continue
        above = i
        while above and lines[above - 1].strip().startswith(("///", "#[")):
            above -= 1
        doc = " ".join(it.strip()[3:].strip() for it in lines[above:i] if it.strip().startswith("///"))
        last = head_end(lines, i, found[1])
        end = last
        while lines[last].endswith("{") and lines[end] != found[1] + "}":
            end += 1
        yield Function(f"{path}:{i + 1}", found[3], owner, found[2] == "pub ", doc, "\n".join(lines[i:last + 1]), "\n".join(lines[last:end + 1]))


def passed_on(crate):
    """The names that lib.rt passes on, and its public modules."""
    text = re.sub(r"//.*", "", pathlib.Path("crates", crate, "src/lib.rt").read_text())
    names = set()
    for module, listed in re.findall(r"^pub use ([\w:]+?)(?:::\{([^}]*)\})?;", text, re.M):
        names.update(re.findall(r"\w+", listed) or [module.split("::")[-1]])
    return names | set(re.findall(r"^pub (?:fn|struct|enum|trait|type) (\w+)", text, re.M)), set(re.findall(r"^pub mod (\w+)", text, re.M))


def all_functions():
    for crate in CRATES:
        names, modules = passed_on(crate)
        for path in sorted(pathlib.Path("crates", crate, "src").rglob("*.rt")):
            inner = path.relative_to(pathlib.Path("crates", crate, "src")).parts[0].removesuffix(".rt")
            for it in functions(path):
                is_reached = it.is_public and (inner in modules or (it.owner or it.name) in names)
                yield it._replace(is_public=is_reached)


def long_ones(found):
    """The places of the functions that take more than constant time. A call is told by its name alone, so it counts if each function of
    that name does."""
    places = {it.place for it in found if LONG.search(it.body)}
    while True:
        names = {it.name for it in found if it.place in places} - {it.name for it in found if it.place not in places}
        more = {it.place for it in found if it.place not in places and names.intersection(re.findall(r"\b(\w+)\(", it.body))}
        if not more:
            return places
        places |= more


def error_of(function):
    """The error type that a function returns, if it can fail."""
    kind = re.search(r"-> (.*Result<.*>)", function.head)
    if not kind:
        return ""
    inner = kind[1].split("Result<", 1)[1][:-1]
    while "<" in inner:
        inner = re.sub(r"<[^<>]*>", "", inner)
    return re.findall(r"\w+", inner)[-1]


def cases_of(kind):
    """The names of the cases of an error type."""
    for crate in CRATES:
        for path in pathlib.Path("crates", crate, "src").rglob("*.rt"):
            body = re.search(rf"^pub enum {kind}\b[^{{]*\{{(.*?)^\}}", path.read_text(), re.M | re.S)
            if body:
                return re.findall(r"^    (\w+)", body[1], re.M)
    return []


def names_error(doc, kind):
    """Whether a doc names an error type or all its cases; `Memory` is what the crates call the type of lack of memory."""
    def is_named(name):
        return re.search(rf"`(?:\w+::)?{name}\b", doc)

    cases = cases_of(kind)
    return is_named(kind) or kind == "AllocError" and is_named("Memory") or bool(cases) and all(is_named(it) for it in cases)


def main():
    found = list(all_functions())
    slow = long_ones(found)
    wrong = []
    compared = 0
    for it in found:
        error = error_of(it)
        is_law = it.body.replace(" ", "").endswith("{}")
        if not it.is_public or is_law or not error and it.place not in slow:
            continue
        compared += 1
        if error and not names_error(it.doc, error):
            wrong.append(f"{it.place}: `{it.name}` does not name its error `{error}`")
        if not COST.search(it.doc):
            wrong.append(f"{it.place}: `{it.name}` does not say its cost")
    if compared < LEAST:
        wrong.append(f"only {compared} public functions were found to compare; there were {LEAST} at least")
    for line in wrong:
        print(line)
    if not wrong:
        print(f"crates: {compared} public functions of {len(CRATES)} crates name their errors and their cost")
    return 1 if wrong else 0

