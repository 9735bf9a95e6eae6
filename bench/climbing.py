"""The climb of bench/slow_calls: from several graphs, steps that make a call of one command longer are kept.

A call is counted in instructions, by valgrind; one whose CPU time is far below that of the longest call so far is not counted. So what
is kept does not depend on what else runs, but by chance.
"""
import os
import random
import subprocess
import time

from families import graph6_text, graph_of, graph_text
from mutations import mutated

STARTS = ("complete-4", "halves-3-3", "petersen-5-2", "complete-10", "halves-5-5", "splits-10-30-1", "separation-3-10-60-1",
          "barrier-3-7-60-1", "glued-8-1", "thick-16-64-1")
NEAR = 0.8  # a call with less of the CPU time of the longest one is not counted
STALE = 40  # after so many steps without a longer call the next start is taken
PAIRS = ("check", "compare", "script", "replay", "decompose script")  # what depends on picks too
MOST_PICKS = 127


class State:
    """A graph, the seeds of two lists of picks, and what the call takes."""

    def __init__(self, name, n, edges, seeds):
        self.name, self.n, self.edges, self.seeds = name, n, edges, seeds
        self.cpu, self.count = 0.0, 0

    def next(self, draw, command):
        """The state after a step, which draws other picks or changes the graph."""
        if command in PAIRS and draw.randrange(3) == 0:
            seeds = list(self.seeds)
            seeds[draw.randrange(2)] = draw.randrange(1000)
            return State(self.name, self.n, self.edges, seeds)
        number = draw.randrange(10_000)
        n, edges = mutated(self.n, self.edges, number)
        return None if edges == self.edges else State(f"{self.name}+{number}", n, edges, self.seeds)


class Climb:
    """The programs, the folder of their files, and the longest call so far."""

    def __init__(self, mcg, mcg6, folder, command):
        self.mcg, self.mcg6, self.folder, self.command = mcg, mcg6, folder, command
        self.longest, self.calls, self.counted = None, 0, 0

    def put(self, name, data):
        path = os.path.join(self.folder, name)
        with open(path, "wb") as file:
            file.write(data)
        return path

    def made(self, name, *words):
        """What a call of mcg writes, as a file; None unless its status is 0."""
        ran = subprocess.run([self.mcg, *words], stdin=subprocess.DEVNULL, stdout=subprocess.PIPE, stderr=subprocess.DEVNULL)
        return None if ran.returncode else self.put(name, ran.stdout)

    def picks(self, seed):
        draw = random.Random(seed)
        return self.put(f"picks{seed}", f"s mcg {MOST_PICKS}\n".encode() + b"".join(b"pick %d\n" % draw.randrange(1000) for _ in range(MOST_PICKS)))

    def words(self, at):
        """The call of the command on a graph; None if there is none, since the graph is not matching covered."""
        file, line = self.put("graph", graph_text(at.n, at.edges).encode()), self.put("list", graph6_text(at.n, at.edges).encode())
        name, *further = self.command.split()
        if name == "mcg6":
            return [self.mcg6, *further, file if further == ["encode"] else line]
        if self.command == "decompose script":
            return [self.mcg, "decompose", file, "script", self.picks(at.seeds[0])]
        if name in ("check", "compare", "script", "replay"):
            trees = [self.made(f"tree{k}", "decompose", file, "script", self.picks(seed)) for k, seed in enumerate(at.seeds)]
            moves = trees[0] and name == "replay" and self.made("moves", "script", file, *trees)
            given = {"check": trees[:1], "replay": [trees[0], moves]}.get(name, trees)
            return None if None in given or False in given else [self.mcg, name, file, *given]
        if name == "checkears":
            ears = self.made("ears", "ears", file)
            return ears and [self.mcg, name, file, ears]
        return [self.mcg, name, line if name == "analyse6" else file, *further]

    def measure(self, at, least):
        """Takes the CPU time of the call, and counts its instructions if that is near the least that is asked for."""
        words = self.words(at)
        if words is None:
            return
        self.calls += 1
        at.cpu = min(cpu_of(words), cpu_of(words))
        if at.cpu >= NEAR * least:
            self.counted += 1
            at.count = instructions_of(words)

    def start(self, name, draw):
        n, edges = graph_of(name)
        at = State(name, n, sorted(edges), [draw.randrange(1000), draw.randrange(1000)])
        self.measure(at, 0)
        return at

    def run(self, seconds):
        """Climbs for so many seconds, from each start in turn, and prints each call that is longer than all before."""
        end, draw, turn = time.monotonic() + seconds, random.Random(1), 0
        while time.monotonic() < end:
            at, stale = self.start(STARTS[turn % len(STARTS)], draw), 0
            turn += 1
            while stale < STALE and time.monotonic() < end:
                new = at.next(draw, self.command)
                stale += 1
                if new is None:
                    continue
                self.measure(new, at.cpu)
                if new.count > at.count:
                    at, stale = new, 0
                    self.take(at)

    def take(self, at):
        if self.longest is None or at.count > self.longest.count:
            self.longest = at
            print(f"{at.count / 1e6:10,.1f} million  {at.cpu:.3f} s  {at.n}, {len(at.edges):,}  {at.name}", flush=True)

    def say(self):
        """The longest call, and how its graph is made."""
        at = self.longest
        seeds = f", picks {at.seeds[0]} and {at.seeds[1]}" if self.command in PAIRS else ""
        print(f"\n{self.calls:,} calls, of which {self.counted:,} were counted. The longest `{self.command}`: "
              f"{at.n} vertices, {len(at.edges):,} edges{seeds}, {at.count / 1e6:,.1f} million instructions, {at.cpu:.3f} s.")
        print(f"bench/slow_calls --graph {at.name}")


def cpu_of(words):
    """The CPU time of a call in seconds."""
    process = subprocess.Popen(words, stdin=subprocess.DEVNULL, stdout=subprocess.DEVNULL, stderr=subprocess.DEVNULL)
    _, status, used = os.wait4(process.pid, 0)
    process.returncode = os.waitstatus_to_exitcode(status)
    return used.ru_utime + used.ru_stime


def instructions_of(words):
    """How many instructions a call takes, by valgrind's cachegrind."""
    count = ["valgrind", "--tool=cachegrind", "--cache-sim=no", "--cachegrind-out-file=/dev/null"]
    ran = subprocess.run([*count, *words], stdin=subprocess.DEVNULL, stdout=subprocess.DEVNULL, stderr=subprocess.PIPE)
    return int(ran.stderr.split(b"refs:")[1].split()[0].replace(b",", b""))
