"""Lists of graphs in files, pipes and named pipes, and the lines that are written for each before the next comes."""
import os
import select
import signal
import subprocess

from .calls import KINDS
from .common import BAD_INPUT, DONE, NO_WORDS, PROGRAMS, READ_FAULT, WRITE_FAULT, lost_output, note, run, said, unread, write

LISTERS = ("mcg6", "mcg6_front")


def try_lists(room):
    """A list in a file and on standard input, one that cannot be opened or read, and an output that cannot be written."""
    some = write(f"{room}/some.g6", b"".join(KINDS))
    whole = (DONE, b"".join(KINDS.values()), b"")
    for program in LISTERS:
        for ran in (run(program, "kinds", some), run(program, "kinds", source=some)):
            note(ran == whole, f"{program} on a list", f"{ran}")
        for path, why in ((f"{room}/none.g6", "there is no such file"), (room, "it is a folder"), ("/proc/self/mem", "a read of it failed")):
            for words in (("kinds",), ("kinds", "skip"), ("graph",), ("leaves",), ("elementary",), ("matching",), ("cuts",), ("ears",), ("select", "perfect"), ("encode",)):
                ran = run(program, *words, path)
                note(ran == (READ_FAULT, b"", unread(program, path, why)), f"{program} {' '.join(words)} {os.path.basename(path)}", f"{ran}")
        folder = os.open(room, os.O_RDONLY)
        ran = run(program, "kinds", stdin=folder)
        os.close(folder)
        note(ran[:2] == (READ_FAULT, b"") and ran[2].startswith(said(program, "mcg6: ")), f"{program}: a folder as standard input", f"{ran}")
        ran = run(program, b"kinds", b"\xff.g6")
        note(ran[:2] == (NO_WORDS, b"") and ran[2].startswith(said(program, "mcg6: ")), f"{program}: the name of a list that is no UTF-8", f"{ran}")
        with open("/dev/full", "wb") as full:
            ran = run(program, "kinds", some, stdout=full)
        note(ran == (WRITE_FAULT, None, lost_output(program)), f"{program}: a list, on a full device", f"{ran}")
        source, drain = os.pipe()
        os.close(source)
        for restores in (True, False):
            ran = run(program, "kinds", some, stdout=drain, restore_signals=restores)
            note(ran == (WRITE_FAULT, None, b""), f"{program}: a list, into a pipe that nobody reads", f"{ran}")
        os.close(drain)
    lines = 'yes "C~" | "$0" kinds | head -n 1; echo "${PIPESTATUS[@]}"'
    ran = subprocess.run(["bash", "-c", lines, PROGRAMS["mcg6_front"]], stdout=subprocess.PIPE, stderr=subprocess.PIPE)
    note((ran.stdout, ran.stderr) == (KINDS[b"C~\n"] + b"141 5 0\n", b""), "a list without end, of which one line is read", f"{ran}")


def lines_of(stream, size):
    """The next bytes of a program's output, so many of them, as far as they come within a minute."""
    got = b""
    while len(got) < size and select.select([stream], [], [], 60)[0]:
        piece = os.read(stream.fileno(), size - len(got))
        if not piece:
            break
        got += piece
    return got


def try_streams(room):
    """A slow writer into a pipe and a named pipe: what is written for a line comes before the next line is sent, whatever signals come."""
    os.mkfifo(f"{room}/list")
    for program in LISTERS:
        for place, words in (("a pipe", ["kinds"]), ("a named pipe", ["kinds", f"{room}/list"])):
            how = {"stdin": subprocess.PIPE, "stdout": subprocess.PIPE, "stderr": subprocess.PIPE}
            with subprocess.Popen([PROGRAMS[program], *words], **how) as ran:
                into = ran.stdin if place == "a pipe" else open(f"{room}/list", "wb")
                for line, wanted in KINDS.items():
                    for sent in (line[:1], line[1:]):
                        into.write(sent)
                        into.flush()
                        for it in (signal.SIGWINCH, signal.SIGSTOP, signal.SIGCONT):
                            select.select([], [], [], 0.02)
                            ran.send_signal(it)
                    got = lines_of(ran.stdout, len(wanted))
                    note(got == wanted, f"{program} kinds, {place}: {line} before the next line is sent", f"{got}")
                into.write(b"C" * 65_537)
                into.flush()
                status = ran.wait(timeout=60)
                note(status == BAD_INPUT, f"{program} kinds, {place}: a line that is too long ends the list before its end is sent", f"{status}")
                got = ran.stdout.read(), ran.stderr.read()
                note(got[0] == b"" and (b"65,536" in got[1]) == (said(program, "x") != b""), f"{program} kinds, {place}: what is written of a line that is too long", f"{got}")
                into.close()


def try_long_list(room):
    """A list of 5,000 lines: its whole output is that of its two halves, and so it is where each line comes after what the one before gave."""
    lines = [line for _ in range(1250) for line in KINDS]
    wanted = b"".join(KINDS[line] for line in lines)
    whole = run("mcg6_front", "kinds", source=write(f"{room}/whole.g6", b"".join(lines)))
    note(whole == (DONE, wanted, b""), "a list of 5,000 lines", f"status {whole[0]}, {len(whole[1])} bytes")
    halves = [run("mcg6_front", "kinds", source=write(f"{room}/half.g6", b"".join(half))) for half in (lines[:1999], lines[1999:])]
    note([it[0] for it in halves] == [DONE, DONE] and halves[0][1] + halves[1][1] == whole[1], "the same list cut in two")
    how = {"stdin": subprocess.PIPE, "stdout": subprocess.PIPE, "stderr": subprocess.PIPE}
    with subprocess.Popen([PROGRAMS["mcg6_front"], "kinds"], **how) as ran:
        answered = 0
        for line in lines:
            ran.stdin.write(line)
            ran.stdin.flush()
            if lines_of(ran.stdout, len(KINDS[line])) != KINDS[line]:
                break
            answered += 1
        ran.stdin.close()
        note(answered == len(lines), "5,000 lines, each sent after what the one before gave", f"{answered} came")
        note((ran.wait(timeout=60), ran.stdout.read()) == (DONE, b""), "their list ends", f"{ran.returncode}")
