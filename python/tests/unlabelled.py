"""One graph from each isomorphism class: all with up to 8 vertices, by a labelling that does not depend on the given one."""
from itertools import permutations, product


def all_unlabelled(order):
    """Yields the rows of neighbours, as sets of bits, of one graph from each isomorphism class on 0, 1, .. Each graph is one with a
    vertex less, with a further vertex that has any neighbours; of two with the same code one is kept."""
    if order == 0:
        yield ()
        return
    seen = set()
    for rows in all_unlabelled(order - 1):
        for last in range(1 << order - 1):
            more = (*(row | (last >> v & 1) << order - 1 for v, row in enumerate(rows)), last)
            code = code_of(more)
            if code not in seen:
                seen.add(code)
                yield more


def code_of(rows):
    """A code that two graphs share if and only if they are isomorphic: the least one over all orders of the vertices that sort their
    colours, where a colour is refined by those of the neighbours as long as this tells more vertices apart."""
    order = len(rows)
    near = [[w for w in range(order) if row >> w & 1] for row in rows]
    colours = [len(it) for it in near]
    while True:
        named = [(colours[v], tuple(sorted(colours[w] for w in near[v]))) for v in range(order)]
        places = {name: k for k, name in enumerate(sorted(set(named)))}
        refined = [places[name] for name in named]
        if len(places) == len(set(colours)):
            break
        colours = refined
    cells = [[v for v in range(order) if refined[v] == k] for k in range(len(places))]
    twins = [_twins(cell, rows) for cell in cells]
    best = None
    for parts in product(*twins):
        listed = [v for part in parts for v in part]
        place = {v: k for k, v in enumerate(listed)}
        code = tuple(sum(1 << place[w] for w in near[v]) for v in listed)
        if best is None or code < best:
            best = code
    return tuple(map(len, cells)), best


def _twins(cell, rows):
    """The orders of a cell that may matter: only one if any two vertices of it have the same further neighbours."""
    first = cell[0]
    if all((rows[first] & ~(1 << v)) == (rows[v] & ~(1 << first)) for v in cell):
        return [tuple(cell)]
    return list(permutations(cell))


def text_of(rows):
    """The graph6 text."""
    order = len(rows)
    bits = "".join(str(rows[a] >> b & 1) for b in range(order) for a in range(b))
    bits += "0" * (-len(bits) % 6)
    return chr(63 + order) + "".join(chr(63 + int(bits[k : k + 6], 2)) for k in range(0, len(bits), 6))


# How many there are with 0, 1, .. vertices (OEIS A000088).
COUNTS = (1, 1, 2, 4, 11, 34, 156, 1044, 12346)


def texts(most):
    """The graph6 texts of all graphs with up to so many vertices, one from each class; their number must be the published one."""
    for order in range(most + 1):
        found = [text_of(rows) for rows in all_unlabelled(order)]
        assert len(found) == COUNTS[order], (order, len(found))
        yield from found


if __name__ == "__main__":
    import sys

    print(*texts(int(sys.argv[1])), sep="\n")
