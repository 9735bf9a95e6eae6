"""Checks a report of Mcg: python -m mcg.verify [--order ORDER] GRAPH REPORT [FILES], or for mcg6
python -m mcg.verify --list LIST REPORT COMMAND..

GRAPH is the graph file, or a graph in graph6 for analyse6. REPORT is what the command wrote, and
FILES are the files that it read after the graph: none for analyse and ears, PICKS for decompose
script, TREE for check, EARS for checkears, TREE1 TREE2 for compare and script, TREE MOVES for
replay. ORDER is the order of choice of decompose: first, last or balanced. Without an order and
picks, a report of decompose is right if some picks give it.

LIST is a list of graphs, and COMMAND.. what `mcg6` was called with, without a file: kinds,
`leaves last skip`, `select brick`; for encode, LIST is the graph file. Both files are read line by
line, and each line of the report that is wrong is named.

`-` is standard input. Status 0: the report is right. Status 1: the definitions contradict it.
Status 2: wrong arguments, or a file that cannot be read or is outside its format.
"""
import sys
from contextlib import ExitStack
from typing import IO, List, Optional

from ..errors import Error
from ..labels import counted
from ..properties import Order, order_word
from . import Wrong, report
from .lists import Judged, query_of


def _text(name: str) -> str:
    if name == "-":
        return sys.stdin.buffer.read().decode("latin-1")
    with open(name, "rb") as file:
        return file.read().decode("latin-1")


def main(names: List[str]) -> int:
    """Checks the report in these files, and returns the exit status."""
    least = {"--list": 4, "--order": 4}.get(names[0] if names else "", 2)
    if len(names) < least or names[0] in ("-h", "--help"):
        print(__doc__.strip(), file=sys.stdout if names[:1] in (["-h"], ["--help"]) else sys.stderr)
        return 0 if names[:1] in (["-h"], ["--help"]) else 2
    try:
        if names[0] == "--list":
            return judge_list(names[1], names[2], names[3:])
        order: Optional[Order] = None
        if names[0] == "--order":
            order, names = order_word(names[1]), names[2:]
        command = report(*map(_text, names), order=order)
    except Wrong as what:
        print(f"{names[1]}: wrong: {what}")
        return 1
    except (Error, OSError, ValueError) as why:
        print(f"mcg.verify: {why}", file=sys.stderr)
        return 2
    said = {"tree": "refusal of a tree", "verdict": "verdict"}.get(command, f"{command} report")
    print(f"{names[1]}: correct {said}")
    return 0


def judge_list(list_name: str, report_name: str, words: List[str]) -> int:
    """Names each line of a report of mcg6 on a list that is wrong, and returns the exit status."""
    query_of(words)
    with ExitStack() as stack:
        source, told = (_file(name, stack) for name in (list_name, report_name))
        judged, faults = Judged(source, told, words), 0
        for fault in judged:
            faults += 1
            about = "" if fault.number is None else f" (line {fault.number} of {list_name})"
            print(f"{report_name}: line {fault.line} is wrong{about}: {fault.words}")
    said = f"mcg6 {' '.join(words)} report, {counted(judged.lines, 'line')}"
    print(f"{report_name}: wrong in {counted(faults, 'place')}: {said}" if faults else f"{report_name}: correct {said}")
    return 1 if faults else 0


def _file(name: str, stack: ExitStack) -> IO[bytes]:
    return sys.stdin.buffer if name == "-" else stack.enter_context(open(name, "rb"))


if __name__ == "__main__":
    sys.exit(main(sys.argv[1:]))
