"""The graphs of graphs.tsv, from graph6 to the graph format of mcg. The edges stand in the order of graph6, by columns."""


def from_g6(text):
    b = [ord(c) - 63 for c in text.strip()]
    if b[0] == 63:
        n, p = (b[1] << 12) | (b[2] << 6) | b[3], 4
    else:
        n, p = b[0], 1
    edges, k = [], 0
    for j in range(1, n):
        for i in range(j):
            if b[p + k // 6] >> (5 - k % 6) & 1:
                edges.append((i + 1, j + 1))
            k += 1
    return n, edges


def load(path):
    """A list of (name, n, edges), of lines NAME N M GRAPH6 with a tab between."""
    with open(path) as rows:
        return [(words[0],) + from_g6(words[3]) for words in (row.rstrip("\n").split("\t") for row in rows)]


def mcg_text(n, edges):
    """The text of the graph, in version 2 where version 1 is too small."""
    if n > 64 or len(edges) > 512:
        rows = [f"p mcg2 {n} {len(edges)}"] + [f"v v{k}" for k in range(1, n + 1)] + [f"e v{a} v{b}" for a, b in edges]
    else:
        rows = [f"p mcg {n} {len(edges)}"] + [f"e {a} {b}" for a, b in edges]
    return "\n".join(rows) + "\n"
