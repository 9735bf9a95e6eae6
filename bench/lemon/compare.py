#!/usr/bin/env python3
"""Times mcg and LEMON on the same graphs in one run, by turns: see bench/compare.

  bench/compare [options] PROGRAM     PROGRAM as ./build prints it

  --mode match|ge|allowed|full        what LEMON computes, default full: a maximum matching, the Gallai-Edmonds sets too, the
                                      allowed edges and the verdict too, the structure of a covered graph too
  --set small|large|all|NAME,NAME     default all; small is within 64 vertices and 512 edges
  --reps R                            rounds, default 15; the least processor time counts
  --limit S                           seconds for one run, default 60; one graph of one program stops
                                      its rounds after 10 seconds
  --callgrind                         instruction counts of valgrind in place of times, one run each
  --allowed naive|augment|vertex      how LEMON finds allowed edges, default vertex: one search a vertex

From each figure the program's own figure on the graph without vertices, taken by turns with it, is taken off ("net"), so that
what remains is the work on the graph and not the start of the process. ratio = mcg net / peer net; it
is left out where the peer's net is below the noise (0.15 ms), and a bound where only mcg's is. The reports are compared line by line (reports.py).
"""
import math
import os
import re
import signal
import statistics
import subprocess
import sys
import tempfile
import time

from graphs import load, mcg_text
from reports import differences

HERE = os.path.dirname(os.path.abspath(__file__))
SMALL = ("petersen prism_5 prism_16 K8 K16 K32 K16_16 K22_22 cubic_20_1 cubic_32_1 cubic_48_1 cubic_64_1 GP_32_2 biwheel_64 "
      "staircase_64 cycle_64 regular4_64 regular8_64 dense_32_256_1 dense_64_512_1 sparse_64_64_1 sparse_64_128_1 tree_64 "
      "bip_32_32_128").split()
LARGE = ("cubic_80_1 cubic_96_1 cubic_112_1 cubic_128_1 moebius_ladder_128 cycle_128 regular8_128 K64 dense_128_512_1 "
      "dense_128_1024_1 dense_128_2048_1 bip_64_64_1024 sparse_128_128_1 sparse_128_256_1").split()


def run(cmd, limit):
    """(status, stdout, CPU seconds, wall seconds); status None where the limit was reached."""
    t = time.perf_counter()
    with tempfile.TemporaryFile() as out:
        p = subprocess.Popen(cmd, stdout=out, stderr=subprocess.DEVNULL)
        gone = []
        signal.signal(signal.SIGALRM, lambda *_: (gone.append(1), os.kill(p.pid, signal.SIGKILL)))
        signal.setitimer(signal.ITIMER_REAL, limit)
        _, st, use = os.wait4(p.pid, 0)
        signal.setitimer(signal.ITIMER_REAL, 0)
        p.returncode = os.waitstatus_to_exitcode(st)
        wall = time.perf_counter() - t
        out.seek(0)
        text = out.read().decode(errors="replace")
    return (None if gone else p.returncode), text, use.ru_utime + use.ru_stime, wall


def instructions(cmd, limit):
    try:
        p = subprocess.run(["valgrind", "--tool=callgrind", "--callgrind-out-file=/dev/null"] + cmd,
                           capture_output=True, text=True, timeout=limit * 60)
    except subprocess.TimeoutExpired:
        return None, "", math.nan
    m = re.search(r"Collected : (\d+)", p.stderr)
    return p.returncode, p.stdout, int(m.group(1)) if m else math.nan


def main(words):
    opt, rest, it = {"mode": "full", "set": "all", "reps": "15", "limit": "60", "allowed": "vertex"}, [], iter(words)
    for w in it:
        if w == "--callgrind":
            opt["callgrind"] = True
        elif w.startswith("--"):
            if w[2:] not in opt:
                sys.exit(__doc__)
            opt[w[2:]] = next(it)
        else:
            rest.append(w)
    if len(rest) != 1:
        sys.exit(__doc__)
    mcg, grind, limit = [os.path.abspath(rest[0]), "analyse"], "callgrind" in opt, float(opt["limit"])
    known = {}
    for name, n, e in load(os.path.join(HERE, "graphs.tsv")):
        known.setdefault(name, (n, e))
    names = [x for x in {"small": SMALL, "large": LARGE, "all": SMALL + LARGE}.get(opt["set"], opt["set"].split(",")) if x in known]
    with tempfile.TemporaryDirectory() as d:
        def put(name, n, e):
            p = os.path.join(d, name + ".mcg")
            with open(p, "w") as f:
                f.write(mcg_text(n, e))
            return p
        empty = put("empty", 0, [])
        mode = opt["mode"]
        progs = {"mcg": mcg}
        progs["lemon"] = [os.path.join(HERE, "bin", "lemon"), "--allowed", opt["allowed"], "--mode", mode]
        peers = [p for p in progs if p != "mcg"]
        unit, scale = ("kI", 1e3) if grind else ("ms", 1e-3)

        zero = {}

        def measure(path):
            figs, bases, texts = {p: [] for p in progs}, {p: [] for p in progs}, {}
            dead, spent = set(), dict.fromkeys(progs, 0.0)
            for r in range(1 if grind else int(opt["reps"])):
                for p, cmd in progs.items():
                    if p in dead or (r and spent[p] > 10):
                        continue
                    if grind:
                        if p not in zero:
                            zero[p] = instructions(cmd + [empty], limit)[2]
                        st, text, x = instructions(cmd + [path], limit)
                        y = zero[p]
                    else:
                        y = run(cmd + [empty], limit)[2]
                        st, text, x, wall = run(cmd + [path], limit)
                        spent[p] += wall
                    if st is None or (st and st != 1):
                        dead.add(p)
                        texts[p] = "over the limit" if st is None else f"status {st}"
                        figs[p] = []
                        continue
                    figs[p].append(x)
                    bases[p].append(y)
                    texts[p] = text
            return {p: (min(v) - min(bases[p]) if v else math.nan) for p, v in figs.items()}, texts, dead

        starts = {p: (instructions if grind else run)(c + [empty], limit)[2] for p, c in progs.items()}
        noise = 5.0 if grind else 0.15
        print(f"# mode {mode}; {unit} " + ("of callgrind" if grind else f"CPU, least of {opt['reps']}") + "; start of the process, taken off: "
              + ", ".join(f"{p} {starts[p] / scale:.2f}" for p in progs))
        print(f"{'input':<20}{'n':>5}{'m':>6}{'mcg':>11}" + "".join(f"{p:>11}{'ratio':>9}" for p in peers) + "  report")
        groups, worst = {}, 0
        for name in names:
            n, e = known[name]
            figs, texts, dead = measure(put(name, n, e))
            net = {p: figs[p] / scale for p in progs}
            row = f"{name:<20}{n:>5}{len(e):>6}" + (f"{net['mcg']:>11.2f}" if "mcg" not in dead else f"{'-':>11}")
            for p in peers:
                ok = p not in dead and "mcg" not in dead and net[p] > noise
                low = ok and net["mcg"] < noise  # then only a bound on the ratio is known
                q = (noise if low else net["mcg"]) / net[p] if ok else math.nan
                row += (f"{net[p]:>11.2f}" if p not in dead else f"{'-':>11}") + (f"{('<' if low else '') + f'{q:.2f}':>9}" if ok else f"{'.':>9}")
                if ok and not low:
                    size = "n<=20" if n <= 20 else "n<=32" if n <= 32 else "n<=64" if n <= 64 else "n<=128"
                    groups.setdefault((p, size), []).append(q)
            if "mcg" in dead:
                say = "mcg: " + texts["mcg"]
            else:
                bad = [x for p in peers if p not in dead for x in differences(n, e, texts["mcg"], texts[p])]
                worst += len(bad)
                say = "same" if not bad else "DIFFERS " + bad[0]
            print(row + "  " + say, flush=True)
        print("# geometric mean of mcg/peer by size")
        for (p, size), qs in sorted(groups.items()):
            print(f"{p:<8}{size:<8}{math.exp(statistics.fmean(map(math.log, qs))):>9.2f}   over {len(qs)}")
    return 1 if worst else 0


if __name__ == "__main__":
    sys.exit(main(sys.argv[1:]))
