"""What the trials of tests/edge share: the programs, how they are run, and what passed."""
import os
import resource
import shutil
import subprocess

ROOT = os.path.dirname(os.path.dirname(os.path.dirname(os.path.realpath(__file__))))
EXAMPLES = f"{ROOT}/examples"
NAMES = ("mcg", "mcg6", "mcg_front", "mcg6_front")
PROGRAMS = {name: f"{ROOT}/crates/{name}/out/{name}" for name in NAMES}
passed, failed, skipped = [], [], []

# The statuses of docs/FORMATS.md.
DONE, NEGATIVE, USAGE, READ_FAULT, BAD_INPUT, WRITE_FAULT, NO_MEMORY, NO_WORDS = range(8)


def note(well, name, why=""):
    (passed if well else failed).append(name)
    if not well:
        print(f"FAILED {name}: {why}"[:2000], flush=True)


def run(program, *words, source=None, stack=None, env=None, **how):
    """Runs the program, with the file `source` on standard input, and returns its status, standard output and standard error."""
    how = {"stdin": subprocess.DEVNULL, "stdout": subprocess.PIPE, "stderr": subprocess.PIPE, "timeout": 120, **how}
    how["env"] = {"PATH": "/usr/bin:/bin", **(env or {})}
    if stack:
        how["preexec_fn"] = lambda: resource.setrlimit(resource.RLIMIT_STACK, (stack, stack))
    if source is not None:
        how["stdin"] = open(source, "rb")
    try:
        ran = subprocess.run([PROGRAMS[program], *words], **how)
    except subprocess.TimeoutExpired as late:
        return "no end", late.stdout or b"", late.stderr or b""
    finally:
        if source is not None:
            how["stdin"].close()
    return ran.returncode, ran.stdout, ran.stderr


def write(path, text):
    with open(path, "wb") as it:
        it.write(text if isinstance(text, bytes) else text.encode())
    return path


def read(path):
    with open(path, "rb") as it:
        return it.read()


def cycle(n, more):
    """The cycle of n vertices with names, whose first edge is there `more` times more, so that each leaf of a decomposition shows it."""
    names = "".join(f"v a{k}\n" for k in range(1, n + 1))
    edges = "".join(f"e a{k} a{k % n + 1}\n" for k in range(1, n + 1))
    return f"p mcg2 {n} {n + more}\n{names}" + "e a1 a2\n" * more + edges


def library(room, name):
    """A small library that goes before the C library's calls, from the C file of that name beside this folder."""
    made = f"{room}/{name}.so"
    subprocess.run(["cc", "-O1", "-shared", "-fPIC", "-o", made, f"{ROOT}/tests/{name}.c"], check=True)
    return made


def has_compiler():
    return shutil.which("cc") is not None


def is_front(program):
    return program.endswith("_front")


def said(program, text):
    """What standard error has: the text if the program is one that users run, and nothing else."""
    return text.encode() if is_front(program) else b""


def name_of(program):
    """How the program calls itself on standard error."""
    return program.removesuffix("_front")


def lost_output(program):
    return said(program, f"{name_of(program)}: the output could not be written whole\n")


def unread(program, path, why="a read of it failed"):
    return said(program, f"{name_of(program)}: cannot read {path}: {why}\n")
