"""python3 -m mcg page FILE -o page.html: writes a page on a graph.
python3 -m mcg census LIST -o FILE.sqlite: writes what is known of each graph of a list.

FILE is a graph file, a file with one graph in graph6, - for standard input, or a text in graph6.
The page is one HTML file with everything in it.

LIST is a file with graphs in graph6, one on each line, or - for standard input. The census goes on
where it was if it was interrupted or the list has grown; `mcg.census` says what is in the file.

Status 0: it is written; 1: it could not be made; 2: the command line is wrong; 130: interrupted.
"""
from __future__ import annotations

import argparse
import importlib.util
import os
import sys
from typing import List, Optional, Tuple

from . import Error, Graph


def main(words: Optional[List[str]] = None) -> int:
    """Does what the command line says and returns the exit status."""
    parser = argparse.ArgumentParser(prog="python3 -m mcg", description="Pages on graphs, and censuses of lists.")
    commands = parser.add_subparsers(dest="command", required=True, metavar="COMMAND")
    command = commands.add_parser("page", help="write a page on a graph, one HTML file")
    command.add_argument("file", metavar="FILE", help="a graph file, - or a text in graph6")
    command.add_argument("-o", "--output", metavar="PAGE", help="the page; else standard output")
    command.add_argument("--title", help="what the page is called; else the name of the file")
    census = commands.add_parser("census", help="write what is known of the graphs of a list, in SQLite")
    census.add_argument("list", metavar="LIST", help="a file with graphs in graph6, or -")
    census.add_argument("-o", "--output", metavar="FILE", required=True, help="the SQLite file")
    census.add_argument("--edges", action="store_true", help="count removable and b-invariant edges")
    census.add_argument("--processes", type=int, default=1, metavar="N", help="processes of mcg6")
    census.add_argument("--quiet", action="store_true", help="no lines of progress")
    given = parser.parse_args(words)
    try:
        if given.command == "census":
            from .census_program import take_census

            take_census(given.list, given.output, given.edges, given.processes, given.quiet)
        else:
            write_page(given.file, given.output, given.title)
    except (Error, ImportError, OSError, UnicodeDecodeError, ValueError) as why:
        print(f"python3 -m mcg {given.command}: {why}", file=sys.stderr)
        return 1
    except KeyboardInterrupt:
        print(f"python3 -m mcg {given.command}: interrupted", file=sys.stderr)
        return 130
    return 0


def write_page(name: str, output: Optional[str], title: Optional[str]) -> None:
    """Writes the page on a graph."""
    from .draw.pages import page

    if not all(map(importlib.util.find_spec, ("numpy", "networkx"))):
        packages = "NumPy and NetworkX (Debian: python3-numpy, python3-networkx)"
        words = "the vertices are on a circle, and trees in outline"
        print(f"python3 -m mcg page: without {packages} {words}", file=sys.stderr)
    text, called = read_graph(name)
    made = page(Graph.from_text(text), title or called)
    if output is None or output == "-":
        sys.stdout.write(made)
    else:
        with open(output, "w", encoding="utf-8") as file:
            file.write(made)


def read_graph(name: str) -> Tuple[str, str]:
    """Returns the text of a graph and what it is called: a file, standard input or a text in
    graph6. Raises `OSError` if it is none of these."""
    if name == "-":
        return sys.stdin.read(), "A graph"
    if os.path.exists(name):
        with open(name, encoding="utf-8") as file:
            return file.read(), os.path.basename(name)
    if not is_graph6(name):
        raise FileNotFoundError(f"{name} is neither a file nor a text in graph6")
    return name, name


def is_graph6(text: str) -> bool:
    """Returns whether a text can be read as graph6."""
    try:
        Graph(text)
    except Error:
        return False
    return True


if __name__ == "__main__":
    sys.exit(main())
