"""Reports of all sizes into files, pipes and devices; files that cannot be read; and signals."""
import fcntl
import os
import signal
import subprocess
import time

from .common import (BAD_INPUT, DONE, EXAMPLES, NEGATIVE, NO_WORDS, PROGRAMS, READ_FAULT, WRITE_FAULT, cycle, is_front, lost_output, note, read, run, said, unread, write)

BENCHES = ("mcg", "mcg_front")


def reports(room):
    """Commands, by the status of each, from the shortest reports to some of the longest."""
    empty = write(f"{room}/empty.mcg", "p mcg 0 0\n")
    large = write(f"{room}/large.mcg", cycle(128, 1920))
    long_cycle = write(f"{room}/cycle.mcg", cycle(128, 0))
    bad = write(f"{room}/bad.mcg", "p mcg 2 1\ne 1 1\n")
    return [
        (("decompose", empty, "first"), NEGATIVE),
        (("analyse", bad), BAD_INPUT),
        (("analyse", f"{EXAMPLES}/k4.mcg"), DONE),
        (("ears", f"{EXAMPLES}/cube.mcg"), DONE),
        (("grow", "7", "16"), DONE),
        (("decompose", long_cycle, "first"), DONE),
        (("convert", large), DONE),
        (("decompose", large, "first"), DONE),
        (("decompose", large, "last"), DONE),
        (("decompose", long_cycle, "balanced"), DONE),
    ]


def through_slow_pipe(program, words, most):
    """The status and what comes through a pipe of the least size, from which a few bytes are taken at a time."""
    source, drain = os.pipe()
    fcntl.fcntl(drain, fcntl.F_SETPIPE_SZ, 4096)
    with subprocess.Popen([PROGRAMS[program], *words], stdin=subprocess.DEVNULL, stdout=drain, stderr=subprocess.DEVNULL) as ran:
        os.close(drain)
        pieces = []
        while piece := os.read(source, most):
            pieces.append(piece)
        os.close(source)
        return ran.wait(timeout=60), b"".join(pieces)


def try_reports(room):
    """Each report comes whole into a file, through a wide pipe and through a slow one; and a full device ends with its status."""
    sizes = []
    for words, status in reports(room):
        with open(f"{room}/whole", "wb") as it:
            alone = run("mcg", *words, stdout=it)
        whole = read(f"{room}/whole")
        sizes.append(len(whole))
        for program in BENCHES:
            name = f"{program} {words[0]} {os.path.basename(words[1])}"
            ran = run(program, *words)
            well = ran[:2] == (status, whole) == (alone[0], whole) and whole.endswith(b"\n")
            note(well and (ran[2] != b"") == (is_front(program) and status != DONE), f"{name}, into a file and through a pipe", f"{ran}")
            with open("/dev/full", "wb") as full:
                ran = run(program, *words, stdout=full)
            note(ran == (WRITE_FAULT, None, lost_output(program)), f"{name}, on a full device", f"{ran}")
            for most in (1, 7, 100) if is_front(program) else ():
                if len(whole) < 50_000 * most:
                    note(through_slow_pipe(program, words, most) == (status, whole), f"{name}, through a pipe by {most} bytes")
    print(f"edge: reports of {min(sizes)} to {max(sizes)} bytes")


def try_closed(room):
    """A pipe that nobody reads ends the run with status 5 and no words, whatever the caller's signal of the pipe; a closed standard output is said."""
    k4, large = f"{EXAMPLES}/k4.mcg", write(f"{room}/large.mcg", cycle(128, 1920))
    source, drain = os.pipe()
    os.close(source)
    for program in BENCHES:
        for restores in (True, False):
            ran = run(program, "analyse", k4, stdout=drain, restore_signals=restores)
            note(ran == (WRITE_FAULT, None, b""), f"{program}: a pipe that nobody reads", f"{ran}")
        ran = subprocess.run(["bash", "-c", '"$0" analyse "$1" >&-', PROGRAMS[program], k4], stderr=subprocess.PIPE)
        note((ran.returncode, ran.stderr) == (WRITE_FAULT, lost_output(program)), f"{program}: a closed standard output", f"{ran}")
        words = [PROGRAMS[program], "decompose", large, "first"]
        with subprocess.Popen(words, stdout=subprocess.PIPE, stderr=subprocess.PIPE) as left:
            left.stdout.read(10_000)
            left.stdout.close()
            left.wait(timeout=60)
            note((left.returncode, left.stderr.read()) == (WRITE_FAULT, b""), f"{program}: a pipe whose reader leaves", f"{left.returncode}")
    os.close(drain)


def try_reads(room):
    """What cannot be opened, what can be opened and not be read, and names that are no UTF-8."""
    k4, leaf = f"{EXAMPLES}/k4.mcg", write(f"{room}/leaf.tree", "t mcg 4\nleaf\n")
    for program in BENCHES:
        for path, why in ((f"{room}/none.mcg", "there is no such file"), (room, "it is a folder"), ("/proc/self/mem", "a read of it failed")):
            for words in (("analyse", path), ("check", k4, path), ("compare", k4, leaf, path), ("compare", k4, path, leaf), ("replay", k4, leaf, path)):
                ran = run(program, *words)
                note(ran == (READ_FAULT, b"", unread(program, path, why)), f"{program} {words[0]} .. {os.path.basename(path)}", f"{ran}")
        for words in ((b"analyse", b"\xff.mcg"), (b"\xc3", b"g"), (b"analyse", b"g", b"\xed\xa0\x80")):
            ran = run(program, *words)
            note(ran[:2] == (NO_WORDS, b"") and ran[2].startswith(said(program, "mcg: ")), f"{program} {words}", f"{ran}")
        named = write(f"{room}/gräph ☃.mcg", read(k4))
        note(run(program, "analyse", named) == run(program, "analyse", k4), f"{program}: a name of more than ASCII")


def try_signals(room):
    """A read of an empty pipe and a write into a full one go on after signals that do not end the program."""
    large = write(f"{room}/large.mcg", cycle(128, 1920))
    whole = run("mcg", "decompose", large, "first")[1]
    os.mkfifo(f"{room}/fifo")
    harmless = (signal.SIGWINCH, signal.SIGCHLD, signal.SIGURG, signal.SIGTSTP, signal.SIGSTOP)
    words = [PROGRAMS["mcg_front"], "decompose", f"{room}/fifo", "first"]
    with subprocess.Popen(words, stdout=subprocess.PIPE, stderr=subprocess.PIPE) as ran:

        def disturb():
            for it in harmless:
                time.sleep(0.02)
                ran.send_signal(it)
                time.sleep(0.02)
                ran.send_signal(signal.SIGCONT)

        disturb()
        text = read(large)
        with open(f"{room}/fifo", "wb") as it:
            it.write(text[:5000])
            it.flush()
            disturb()
            it.write(text[5000:])
        time.sleep(0.3)
        disturb()
        out, err = ran.communicate(timeout=60)
        note((ran.returncode, out, err) == (DONE, whole, b""), "signals while it reads and writes", f"{ran.returncode}")
