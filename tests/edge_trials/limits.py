"""Files and lines at their greatest size, long words, MCG_QUIET, small memory and small stacks, a limit on the size of files, and input that cannot wait."""
import bisect
import os
import resource
import signal
import subprocess

from .calls import commands
from .common import (BAD_INPUT, DONE, EXAMPLES, NEGATIVE, NO_MEMORY, NO_WORDS, PROGRAMS, READ_FAULT, USAGE, WRITE_FAULT, cycle, is_front, library, lost_output, name_of, note,
                     read, run, said, unread, write)

MOST_BYTES, MOST_LINE, MOST_HELD, RETRIES = 1_048_576, 65_536, 512, 1024
TRIED_STACK = 256 * 1024


def padded(room, path, size):
    """The file with a comment at its end that makes it this long."""
    text = read(path)
    return write(f"{room}/padded", text + b"c " + b"x" * (size - len(text) - 3) + b"\n")


def try_sizes(room):
    """Each kind of file is read at its greatest size, and refused at one byte more; so is a line of a list."""
    two, first, last = (f"{EXAMPLES}/two_k4{it}" for it in (".mcg", "_first.tree", "_last.tree"))
    for program in ("mcg", "mcg_front", "mcg6", "mcg6_front"):
        kinds = [("check", two, first), ("compare", two, first, last), ("decompose", two, "script", f"{EXAMPLES}/two_k4.picks"), ("convert", f"{EXAMPLES}/cycle4_named.mcg"),
                 ("checkears", two, f"{EXAMPLES}/two_k4.ears"), ("replay", two, first, f"{EXAMPLES}/two_k4.moves")]
        for words in kinds if name_of(program) == "mcg" else [("encode", two)]:
            plain, files = run(program, *words), [it for it in words if os.path.isfile(it)]
            for place, path in enumerate(files, 1):
                name = f"{program} {words[0]} with a file {place} of"
                take = [padded(room, it, MOST_BYTES) if it == path else it for it in words]
                note(run(program, *take) == plain, f"{name} 1,048,576 bytes", f"{run(program, *take)}")
                padded(room, path, MOST_BYTES + 1)
                ran, text = run(program, *take), f"{name_of(program)}: {room}/padded: it has more than 1,048,576 bytes, the most that a file may have\n"
                wanted = (BAD_INPUT, f"file {place} line 0 kind 6\n".encode() if words[0] != "encode" else b"", said(program, text))
                note(ran == wanted, f"{name} 1,048,577 bytes", f"{ran}")
        for size in (MOST_BYTES, MOST_BYTES + 1) if name_of(program) == "mcg" else ():
            ran = run(program, "analyse6", write(f"{room}/padded", b"C" + b"~" * (size - 1)))
            wanted = b"file 1 line 1 kind 8\n" if size == MOST_BYTES else b"file 1 line 0 kind 6\n"
            note(ran[:2] == (BAD_INPUT, wanted), f"{program} analyse6 with {size} bytes", f"{ran}")
        for size in (MOST_LINE, MOST_LINE + 1) if name_of(program) == "mcg6" else ():
            for end in (b"\nC~\n", b""):
                ran = run(program, "kinds", source=write(f"{room}/padded", b"C" + b"~" * (size - 1 - len(end[:1])) + end))
                well = ran[:2] == (BAD_INPUT, b"") and (b"more than 65,536 bytes" in ran[2]) == (is_front(program) and size > MOST_LINE)
                note(well, f"{program} kinds with a line of {size} bytes, {'with' if end else 'without'} a line feed", f"{ran}")


def pieces_of(text):
    """The pieces in which a text goes to standard error: its lines, of at most 512 bytes each."""
    lines = text.splitlines(keepends=True)
    return [line[at:at + MOST_HELD] for line in lines for at in range(0, len(line), MOST_HELD)]


def try_long_words(room, before):
    """Words of 511 bytes and more go out whole, by a line or 512 bytes at a time, and are cut off at a write that fails."""
    for program in ("mcg_front", "mcg6_front"):
        command = "analyse" if program == "mcg_front" else "kinds"
        around = len(unread(program, "", "there is no such file"))
        for size in (511, 512, 513, 1023, 1024, 1025, 4000):
            name = ("x/" * 4096)[:size - around]
            text = unread(program, name, "there is no such file")
            ran = run(program, command, name, env={"LD_PRELOAD": before, "CALLS": f"{room}/calls"})
            note(ran == (READ_FAULT, b"", text), f"{program}: words of {size} bytes", f"{ran}")
            calls = read(f"{room}/calls").decode().splitlines()
            at = next(i for i, call in enumerate(calls, 1) if call.startswith("write 2"))
            wanted = [f"write 2 {len(it)}" for it in pieces_of(text)]
            note(calls[at - 1:] == wanted, f"{program}: the writes of words of {size} bytes", f"{calls}")
            for i, _ in enumerate(wanted):
                for how in ("fail", "zero", "short", "interrupt"):
                    ran = run(program, command, name, env={"LD_PRELOAD": before, "AT": str(at + i), "HOW": how, "ERRNO": "28"})
                    told = b"".join(pieces_of(text)[:i]) if how in ("fail", "zero") else text
                    note(ran == (READ_FAULT, b"", told), f"{program}: words of {size} bytes, write {i + 1}: {how}", f"{ran}")
        ran = run(program, command, "x/" * 40_000)
        note(ran[:2] == (READ_FAULT, b"") and b"x/x/...: " in ran[2] and len(ran[2]) < 4200, f"{program}: a name of 80,000 bytes", f"{ran}")


def try_file_limit(room):
    """A report that passes the limit on the size of files ends the run by SIGXFSZ, and with status 5 and its words where that is ignored; the file has what fits."""
    large, graphs = write(f"{room}/limited.mcg", cycle(128, 1920)), write(f"{room}/limited.g6", "C~\n" * 1000)
    for program in PROGRAMS:
        words = ("decompose", large, "first") if name_of(program) == "mcg" else ("kinds", graphs)
        whole = run(program, *words)[1]
        # what runs this ignores the signal; `restore_signals` lets it end the program
        for restores, wanted in ((True, (-signal.SIGXFSZ, None, b"")), (False, (WRITE_FAULT, None, lost_output(program)))):
            for most in (0, 1, 512, len(whole) - 1):
                with open(f"{room}/limited", "wb") as it:
                    ran = run(program, *words, stdout=it, restore_signals=restores, preexec_fn=lambda most=most: resource.setrlimit(resource.RLIMIT_FSIZE, (most, most)))
                held = read(f"{room}/limited")
                note((ran, held) == (wanted, whole[:most]), f"{program}: a limit of {most} bytes, {'' if restores else 'ignored'}", f"{ran}, {len(held)} bytes")


def try_quiet(room):
    """MCG_QUIET=1 turns all words off and changes nothing else; any other value leaves them."""
    bad = write(f"{room}/bad", "p mcg 2 1\ne 1 1\n")
    for program in ("mcg_front", "mcg6_front"):
        command = "analyse" if program == "mcg_front" else "encode"
        for words, status in (((command, bad), BAD_INPUT), ((command, f"{room}/none"), READ_FAULT), (("frobnicate", "x"), USAGE), ((command, b"\xff"), NO_WORDS)):
            plain = run(program, *words)
            note(plain[0] == status and plain[2] != b"", f"{program} {words} without MCG_QUIET", f"{plain}")
            note(run(program, *words, env={"MCG_QUIET": "1"}) == (*plain[:2], b""), f"{program} {words} with MCG_QUIET=1")
            for value in ("0", "", "2", "11", " 1", "1 ", "yes", b"\xff"):
                ran = run(program, *words, env={"MCG_QUIET": value})
                note(ran == plain, f"{program} {words} with MCG_QUIET={value}", f"{ran}")


def try_memory(room):
    """Each request for memory is refused in turn: the run ends as ever, or with status 6, nothing on standard output and words; the first
    requests are those of main, for the arguments."""
    refuse = library(room, "refuse")
    for program in PROGRAMS:
        words = ("kinds", f"{EXAMPLES}/two_k4.g6") if name_of(program) == "mcg6" else ("convert", f"{EXAMPLES}/k4.mcg")
        plain = run(program, *words, env={"LD_PRELOAD": refuse, "ASKED": f"{room}/asked"})
        asked = int(read(f"{room}/asked"))
        ends = [run(program, *words, env={"LD_PRELOAD": refuse, "REFUSE": str(it)}) for it in range(1, asked + 1)]
        first, none = next(((i, it) for i, it in enumerate(ends, 1) if it != plain), (0, plain))
        well = plain[0] == DONE and none[:2] == (NO_MEMORY, b"") and (b"memory ran out" in none[2]) == is_front(program)
        note(well, f"{program}: no memory for the arguments (request {first})", f"{none}")
        # of a list what was written before is there
        is_due = lambda it: it in (plain, none) or name_of(program) == "mcg6" and it[0] == NO_MEMORY and plain[1].startswith(it[1])
        strange = [(i, it) for i, it in enumerate(ends, 1) if not is_due(it)]
        note(not strange, f"{program}: each of {asked} requests refused in turn", f"{strange[:3]}")
        if is_front(program):  # which takes memory for the value of MCG_QUIET, so the requests have other numbers
            ends = [run(program, *words, env={"LD_PRELOAD": refuse, "REFUSE": str(it), "MCG_QUIET": "1"}) for it in range(1, first + 3)]
            note((NO_MEMORY, b"", b"") in ends and not any(it[2] for it in ends), f"{program}: no memory for the arguments, quiet", f"{ends}")


def rungs(n, twist):
    """The ladder of n rungs whose ends are joined, straight or, with a twist, crosswise."""
    edges = [(k, k + 1) for k in range(1, n)] + [(n + k, n + k + 1) for k in range(1, n)] + [(k, n + k) for k in range(1, n + 1)]
    edges += [(1, 2 * n), (n, n + 1)] if twist else [(1, n), (n + 1, 2 * n)]
    return f"p mcg2 {2 * n} {len(edges)}\n" + "".join(f"v v{k}\n" for k in range(1, 2 * n + 1)) + "".join(f"e v{a} v{b}\n" for a, b in edges)


def deepest(room):
    """Commands on graphs of 128 vertices: those with the deepest trees, the longest paths, the most edges, and none of a decomposition."""
    graphs = {
        "cycle": cycle(128, 0), "thick": cycle(128, 1920), "ladder": rungs(64, False), "twisted": rungs(64, True),
        "path": cycle(128, 0).replace("p mcg2 128 128", "p mcg2 128 127").replace("e a128 a1\n", ""),
        "dense": "p mcg2 64 2016\n" + "".join(f"v v{k}\n" for k in range(64)) + "".join(f"e v{a} v{b}\n" for b in range(64) for a in range(b)),
    }
    for name, text in graphs.items():
        path = write(f"{room}/{name}.mcg", text)
        line = write(f"{room}/{name}.g6", run("mcg6", "encode", path)[1])
        yield ("mcg", "analyse", path), DONE
        yield ("mcg", "convert", path), DONE
        yield ("mcg", "analyse6", line), DONE
        for words in (("encode", path), ("kinds", line), ("leaves", line), ("leaves", "last", line), ("elementary", line), ("matching", line), ("select", "bicritical", line), ("select", "perfect", line), ("graph", line)):
            yield ("mcg6", *words), DONE
        status = NEGATIVE if name == "path" else DONE
        trees = [write(f"{room}/{name}.{order}", run("mcg", "decompose", path, order)[1]) for order in ("first", "last")]
        for order in ("first", "last", "balanced"):
            yield ("mcg", "decompose", path, order), status
        yield ("mcg", "ears", path), status
        if status == DONE:
            ears = write(f"{room}/{name}.ears", run("mcg", "ears", path)[1])
            moves = write(f"{room}/{name}.moves", run("mcg", "script", path, *trees)[1])
            yield ("mcg", "decompose", path, "script", write(f"{room}/picks", "s mcg 127\n" + "pick 1\n" * 127)), DONE
            yield ("mcg", "check", path, trees[0]), DONE
            yield ("mcg", "checkears", path, ears), DONE
            yield ("mcg", "compare", path, *trees), DONE
            yield ("mcg", "replay", path, trees[0], moves), DONE
    yield ("mcg", "grow", "7", "16"), DONE


def deep_runs(room):
    """The deepest inputs with both programs for each: the arguments, a name, the status, and how it ends with the usual stack."""
    for (program, *words), status in deepest(room):
        for program in (program, f"{program}_front"):
            yield (program, *words), f"{program} {' '.join(map(os.path.basename, words))}", status, run(program, *words)


def try_stack(room):
    """With a stack of 256 kB the deepest inputs give what they give with the usual one."""
    for words, name, status, plain in deep_runs(room):
        small = run(*words, stack=TRIED_STACK)
        note(plain[0] == status and small == plain, f"{name}, with a small stack", f"{plain[0]}, {small[0]}")


def least_stacks(room):
    """Prints the least stack, in steps of 4 kB up to 256 kB, with which each of the deepest inputs gives what it gives with the usual one."""
    least = {}
    for words, name, _, plain in deep_runs(room):
        sizes = range(32, TRIED_STACK // 1024 + 1, 4)
        at = bisect.bisect_left(sizes, True, key=lambda size: run(*words, stack=1024 * size) == plain)
        least[name] = sizes[at] if at < len(sizes) else None
        print(f"{least[name] or 'more than 256'} kB: {name}", flush=True)
    print(f"edge: the least stack for all of {len(least)}: {'more than 256' if None in least.values() else max(least.values())} kB")


def try_short_and_interrupted(room, before):
    """Calls that move a few bytes, and calls that a signal interrupts 1,024 times each, change nothing; one interrupt more is a failure."""
    some, large = write(f"{room}/some.g6", "C~\nE~rG\n"), write(f"{room}/large.mcg", cycle(128, 1920))
    tries = [("mcg", *words) for words in commands(room)] + [("mcg", "check", f"{EXAMPLES}/k4.mcg", large), ("mcg", "decompose", large, "first"), ("mcg", "frobnicate")]
    tries += [("mcg6", "kinds", some), ("mcg6", "leaves", some), ("mcg6", "encode", large), ("mcg6", "kinds", f"{room}/none")]
    for name, *words in tries:
        for program in (name, f"{name}_front"):
            plain = run(program, *words)
            ways = ({"MOST": "1"}, {"MOST": "7"}, {"INTERRUPTS": "1"}, {"INTERRUPTS": "5", "MOST": "1000"}, {"INTERRUPTS": str(RETRIES)})
            for how in ways[:1] * (len(plain[1]) < 100_000) + ways[1:]:
                ran = run(program, *words, env={"LD_PRELOAD": before, **how})
                note(ran == plain, f"{program} {' '.join(map(os.path.basename, words))}, {how}", f"status {ran[0]}, {len(ran[1])} bytes, {ran[2]}")
    how = {"LD_PRELOAD": before, "INTERRUPTS": str(RETRIES + 1)}
    petersen = f"{EXAMPLES}/petersen.g6"
    for program in PROGRAMS:
        command = "kinds" if name_of(program) == "mcg6" else "analyse"
        ran = run(program, command, petersen, env=how)
        note(ran == (READ_FAULT, b"", unread(program, petersen)), f"{program}: a read interrupted 1,025 times", f"{ran}")
        ran = run(program, "frobnicate", env=how)
        note(ran == (USAGE, b"", b""), f"{program}: a write of words interrupted 1,025 times", f"{ran}")
        if command == "analyse":
            ran = run(program, "grow", "1", "1", env=how)
            note(ran == (WRITE_FAULT, b"", lost_output(program)), f"{program}: a write interrupted 1,025 times", f"{ran}")


def try_no_waiting(room):
    """A read or a write of a pipe that is not to wait, where it would have to, fails."""
    for program in ("mcg6", "mcg6_front"):
        source, drain = os.pipe()
        os.set_blocking(source, False)
        ran = run(program, "kinds", stdin=source)
        note(ran[:2] == (READ_FAULT, b"") and ran[2].startswith(said(program, "mcg6: ")), f"{program}: an empty pipe that is not to wait", f"{ran}")
        os.write(drain, b"C~\n")
        ran = run(program, "kinds", stdin=source)
        note(ran[:2] == (READ_FAULT, b"C~ 4 6 brick 1 0 bicritical yes\n"), f"{program}: a pipe with one line that is not to wait", f"{ran}")
        os.close(source), os.close(drain)
    large = write(f"{room}/large.mcg", cycle(128, 1920))
    for program in ("mcg", "mcg_front"):
        source, drain = os.pipe()
        os.set_blocking(drain, False)
        ran = run(program, "decompose", large, "first", stdout=drain)
        os.close(drain)
        with os.fdopen(source, "rb") as it:
            got = it.read()
        whole = run(program, "decompose", large, "first")[1]
        well = ran == (WRITE_FAULT, None, lost_output(program)) and whole.startswith(got) and 0 < len(got) < len(whole)
        note(well, f"{program}: a full pipe that is not to wait", f"{ran} {len(got)}")
        # a name of the pipe opens it anew, and then a read waits
        words = '{ sleep 0.3; printf "p mcg 0 0\\n"; } | python3 -c "import os, sys; os.set_blocking(0, False); os.execv(sys.argv[1], sys.argv[1:])" "$0" analyse /dev/stdin'
        ran = subprocess.run(["bash", "-c", words, PROGRAMS[program]], stdout=subprocess.PIPE, stderr=subprocess.PIPE, timeout=60)
        note(ran.returncode == DONE and ran.stdout.startswith(b"graph 0 0\n"), f"{program}: /dev/stdin that is not to wait", f"{ran}")
