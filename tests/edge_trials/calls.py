"""Each call of open, read and write of all commands fails, moves one byte, returns 0 and is interrupted in turn."""
import errno
import os
import re

from .common import (BAD_INPUT, DONE, EXAMPLES, NEGATIVE, READ_FAULT, USAGE, WRITE_FAULT, is_front, lost_output, name_of, note, read, run, said, unread, write)

# Lines of a list, and what `kinds` writes for each.
KINDS = {
    b"C~\n": b"C~ 4 6 brick 1 0 bicritical yes\n",
    b"A?\n": b"A? 2 0 uncovered parts 2\n",
    b"EFz_\n": b"EFz_ 6 9 brace 0 1 bicritical no\n",
    b"D~{\n": b"D~{ 5 10 uncovered berge 1\n",
}



class Trial:
    """Arguments of a program, the files among them in the order of their reading, and the status."""

    def __init__(self, program, words, status=DONE, source=None, most=None):
        self.program, self.words, self.status, self.source, self.most = program, words, status, source, most
        self.files = [it for it in words if os.path.isfile(it)]
        self.skips = "skip" in words
        self.name = " ".join([program, *map(os.path.basename, words), *(["<", os.path.basename(source)] if source else []), *([f"by {most} bytes"] if most else [])])

    def run(self, swap=None, **env):
        """Runs it; `swap` has files to take in the place of others."""
        take = lambda it: (swap or {}).get(it, it)
        env = {**env, **({"MOST": str(self.most)} if self.most else {})}
        return run(self.program, *map(take, self.words), source=self.source and take(self.source), env=env)


def commands(room):
    """The commands of mcg on worked files."""
    k4, cube, k33, two = (f"{EXAMPLES}/{it}.mcg" for it in ("k4", "cube", "k33_triangle", "two_k4"))
    ears = write(f"{room}/k4.ears", "r mcg 4 6\nstart 1\near 2 4 6 3\near 1 2\nwith 2 5\n")
    first, last = f"{EXAMPLES}/two_k4_first.tree", f"{EXAMPLES}/two_k4_last.tree"
    return [
        ("analyse", k4),
        ("convert", f"{EXAMPLES}/cycle4_named.mcg"),
        ("analyse6", f"{EXAMPLES}/petersen.g6"),
        ("decompose", k33, "first"),
        ("decompose", two, "last"),
        ("decompose", k33, "balanced"),
        ("decompose", two, "script", f"{EXAMPLES}/two_k4.picks"),
        ("check", two, first),
        ("checkears", k4, ears),
        ("ears", cube),
        ("compare", two, first, last),
        ("script", two, first, last),
        ("replay", two, first, f"{EXAMPLES}/two_k4.moves"),
        ("grow", "7", "3"),
    ]


def refused(room):
    """Arguments of mcg that the program refuses: for each place of a file one that is bad and one that is missing, and others."""
    two, first = f"{EXAMPLES}/two_k4.mcg", f"{EXAMPLES}/two_k4_first.tree"
    bad, none = write(f"{room}/bad", "p mcg 2 1\ne 1 1\n"), f"{room}/none"
    long = write(f"{room}/long", b"c\n" * 524_288 + b"c")
    found = [(("compare", *files), BAD_INPUT) for files in ((bad, first, first), (two, bad, first), (two, first, bad))]
    found += [(("compare", *files), READ_FAULT) for files in ((none, first, first), (two, none, first), (two, first, none))]
    return [*found, (("analyse", long), BAD_INPUT), (("analyze", two), USAGE), (("decompose", f"{EXAMPLES}/path4.mcg", "first"), NEGATIVE)]


def lists(room):
    """Arguments of mcg6, and the list on standard input where it is there."""
    some = write(f"{room}/some.g6", b"".join([*KINDS, *KINDS]) + b"C~")
    one, bad = write(f"{room}/one.g6", b"E~rG\n"), write(f"{room}/bad.g6", b"C~\nx!\nC~\n")
    words = [("kinds",), ("leaves",), ("leaves", "last"), ("leaves", "balanced"), ("elementary",), ("matching",), ("cuts",), ("ears",), ("select", "brick"), ("select", "perfect"), ("select", "bricks=1")]
    found = [(it, DONE, source, most) for it, source in [*((it, some) for it in words), (("graph",), one)] for most in (None, 7)]
    found = [(words, status, source, most) for words, status, source, most in found if most is None or words in (("kinds",), ("graph",))]
    found += [(("kinds",), BAD_INPUT, bad, None), (("graph",), BAD_INPUT, some, None)]
    # each bad line is before the first that is answered, so what is said of it does not depend on the write that fails
    skipped = write(f"{room}/skipped.g6", b"x!\nC\nC~\nA?\n")
    for most in (None, 7):
        found += [((*words, "skip"), BAD_INPUT, skipped, most) for words in (("kinds",), ("leaves", "last"), ("elementary",), ("select", "perfect"))]
    for words, status, source, most in found:
        yield words, status, source, most
        yield (*words, source), status, None, most
    yield ("encode", f"{EXAMPLES}/petersen.mcg"), DONE, None, None
    yield ("encode", bad), BAD_INPUT, None, None
    yield ("kinds", f"{room}/none"), READ_FAULT, None, None
    yield ("frobnicate",), USAGE, None, None


def trials(room):
    for program in ("mcg", "mcg_front"):
        for words in commands(room):
            yield Trial(program, words)
        for words, status in refused(room):
            yield Trial(program, words, status, most=None)
    for program in ("mcg6", "mcg6_front"):
        for words, status, source, most in lists(room):
            yield Trial(program, words, status, source, most)
    for program in ("mcg_front", "mcg6_front"):
        for word in ("--help", "--version"):
            yield Trial(program, (word,))


class Call:
    """A call of a run: its kind, its file, what it returned, and, if it reads, the path of its file and how much was read of it before."""

    def __init__(self, line):
        self.kind, self.of, count = line.split()
        self.count, self.path, self.before = int(count), None, 0


def calls_of(trial, path):
    """The calls that were put down in the file."""
    calls = [Call(it) for it in read(path).decode().splitlines()]
    opened, before = iter(trial.files), {}
    at = trial.source
    for call in calls:
        if call.kind == "open" and call.count >= 0:
            at = next(opened)
        if call.kind == "read":
            call.path, call.before = at, before.get(at, 0)
            before[at] = call.before + max(call.count, 0)
        elif call.kind == "open":
            call.path = at if call.count >= 0 else next((it for it in trial.words if os.path.basename(it) == call.of), None)
    return calls


def is_list(trial, path):
    return name_of(trial.program) == "mcg6" and trial.words[0] != "encode"


def unread_words(trial, path):
    """What is said of a file that could not be read, and of standard input."""
    return unread(trial.program, path) if path in trial.words else unread(trial.program, "standard input")


def cut(trial, room, path, text):
    """How the run ends if the file has this text, in the words for the file itself."""
    short = write(f"{room}/cut", text)
    status, out, err = trial.run(swap={path: short})
    return status, out, err.replace(short.encode(), path.encode())


def wanted(trial, room, calls, i, how, plain):
    """How the run ends if call i fails or returns 0; standard output is then a beginning of what it would have been."""
    call = calls[i - 1]
    written = sum(it.count for it in calls[: i - 1] if (it.kind, it.of) == ("write", "1"))
    if call.kind == "write" and call.of == "2":
        told = sum(it.count for it in calls[: i - 1] if (it.kind, it.of) == ("write", "2"))
        return plain[0], plain[1], plain[2][:told]
    if call.kind == "write":
        lost = b"" if how == errno.EPIPE else lost_output(trial.program)
        return WRITE_FAULT, plain[1][:written], (plain[2] if trial.skips else b"") + lost
    if how == "zero":
        return cut(trial, room, call.path, read(call.path)[: call.before])
    out = told = b""
    if is_list(trial, call.path) and call.kind == "read":
        whole = read(call.path)[: call.before].rpartition(b"\n")
        _, out, told = cut(trial, room, call.path, whole[0] + whole[1])
    return READ_FAULT, out, (told if trial.skips else b"") + unread_words(trial, call.path)


def try_trial(trial, room, library):
    """Tries each call of the run in turn, and returns how many there are."""
    how = {"LD_PRELOAD": library}
    # a run without a call writes none of these files
    write(f"{room}/calls", b"")
    plain = trial.run(**how, CALLS=f"{room}/calls")
    note(plain[0] == trial.status and (is_front(trial.program) or not plain[2]), trial.name, f"{plain}")
    calls = calls_of(trial, f"{room}/calls")
    for i, call in enumerate(calls, 1):
        name = f"{trial.name}, call {i} ({call.kind} {call.of})"
        if call.count < 0:
            continue
        for way in ["interrupt"] if call.kind == "open" else ["interrupt", "short"]:
            ran = trial.run(**how, AT=str(i), HOW=way)
            note(ran == plain, f"{name}: {way}", f"{ran}")
        errors = {"open": (errno.EIO,), "read": (errno.EIO, errno.EAGAIN), "write": (errno.ENOSPC, errno.EPIPE, errno.EAGAIN)}[call.kind]
        for way in [*errors, *([] if call.kind == "open" else ["zero"])]:
            step = {"HOW": way, "ERRNO": "0"} if way == "zero" else {"HOW": "fail", "ERRNO": str(way)}
            write(f"{room}/failed", b"")
            ran = trial.run(**how, **step, AT=str(i), CALLS=f"{room}/failed")
            due = wanted(trial, room, calls, i, way, plain)
            note(ran == due, f"{name}: {errno.errorcode.get(way, way)}", f"{ran}, and not {due}")
            after = [f"{it.kind} {it.of}" for it in calls_of(trial, f"{room}/failed")[i:]]
            if way != "zero" or call.kind == "write":
                # a list that was not opened is opened once more, for the reason
                due = {"write 2"} if call.kind != "write" or call.of == "1" else set()
                well = set(after) <= due or (call.kind == "open" and trial.program == "mcg6_front")
                note(well, f"{name}: {errno.errorcode.get(way, way)}, no call after it", f"{after}")
    return len(calls)


def try_each_call(room, library):
    counts = {}
    for trial in trials(room):
        counts[trial.program] = counts.get(trial.program, 0) + try_trial(trial, room, library)
    print("edge: each call in turn:", ", ".join(f"{count} of {program}" for program, count in counts.items()))
