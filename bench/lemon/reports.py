"""The lines of two reports on one graph compared. Lines that only one of the two has are not. If the answer is not unique it is
tested: the set of `covered no berge` must reach the deficiency, and the set of `kind composite` must be a nontrivial tight shore
without the greatest vertex (by a heaviest perfect matching of NetworkX, if that is installed).
"""


def parse(text):
    d, classes = {}, []
    for line in text.splitlines():
        key, _, rest = line.partition(" ")
        if key == "class":
            classes.append(rest)
        elif key != "name":
            d[key] = rest
    if classes:
        d["class"] = " / ".join(classes)
    return d


def odd_parts(n, edges, out):
    adj = {v: [] for v in range(1, n + 1)}
    for a, b in edges:
        adj[a].append(b), adj[b].append(a)
    seen, odd = set(out), 0
    for s in adj:
        if s in seen:
            continue
        seen.add(s)
        todo, k = [s], 0
        while todo:
            v = todo.pop()
            k += 1
            for w in adj[v]:
                if w not in seen:
                    seen.add(w)
                    todo.append(w)
        odd += k % 2
    return odd


def tight(n, edges, shore):
    try:
        import networkx as nx
    except ImportError:
        return True
    g = nx.Graph()
    for a, b in edges:
        g.add_edge(a, b, weight=int((a in shore) != (b in shore)))
    m = nx.max_weight_matching(g, maxcardinality=True)
    return 2 * len(m) == n and sum((a in shore) != (b in shore) for a, b in m) == 1


def differences(n, edges, mine, theirs):
    """A list of lines; mine is the report of mcg, theirs that of the peer."""
    x, y, out = parse(mine), parse(theirs), []
    for key in x:
        if key not in y:
            continue
        a, b = x[key], y[key]
        if key == "covered" and a.startswith("no berge") and b.startswith("no berge"):
            s = set(map(int, a.split()[2:]))
            if "deficiency" in x and odd_parts(n, edges, s) - len(s) != int(y["deficiency"]):
                out.append(f"covered: {a} is no Berge set")
        elif key == "kind" and a.startswith("composite") and b.startswith("composite"):
            s = list(map(int, a.split()[1:]))
            if s and (s != sorted(set(s)) or n in s or len(s) % 2 == 0 or not 3 <= len(s) <= n - 3
                      or not tight(n, edges, set(s))):
                out.append(f"kind: {a} is no canonical nontrivial tight shore")
        elif a != b:
            out.append(f"{key}: mcg `{a[:70]}` peer `{b[:70]}`")
    return out
