"""Changed reports of mcg6: mcg.verify accepts one only if it is another right report, which is shown by brute force.

Run by hand, `python3 python/tests/test_list_fuzz.py LISTS CHANGES [SEED]` makes so many changes of each report on so many lists.
"""
import io
import random
import re
import sys
import unittest

import brute_lists
from support import mcg
from test_fuzz import changed_byte, changed_line, changed_word
from test_verify_lists import NEW, QUERIES, knows, lines, random_text, spoiled, told

from mcg.verify import Judged

SMALL = ["C~", "Bw", "Ch", "EhEG", "E~rG", "A_", "?", "Cs", "Cl", "EFz_"]


def changed_number(draw, text):
    """One number is changed, or two change places, also within a path or a set."""
    parts = re.split("([0-9]+)", text)
    spots = range(1, len(parts), 2)
    k, other = draw.choice(spots), draw.choice(spots)
    if draw.randrange(2):
        parts[k], parts[other] = parts[other], parts[k]
    else:
        parts[k] = str(max(0, int(parts[k]) + draw.choice([-2, -1, 1, 2])))
    return "".join(parts)


def changed_freely(draw, text):
    """A path is turned round, the two ears of a step change places, or two edges of a matching exchange their ends."""
    words = re.split("([ \n+])", text)
    paths = [k for k, word in enumerate(words) if re.fullmatch("[0-9]+(-[0-9]+)+", word)]
    if not paths:
        return changed_number(draw, text)
    k, other = draw.choice(paths), draw.choice(paths)
    one, two = words[k].split("-"), words[other].split("-")
    if draw.randrange(3) == 0:
        words[k] = "-".join(one[::-1])
    elif draw.randrange(3) == 0:
        words[k], words[other] = words[other], words[k]
    elif k != other:
        ends = draw.choice([(one[0], two[0], one[-1], two[-1]), (one[0], two[-1], one[-1], two[0])])
        pairs = sorted(sorted(map(int, pair)) for pair in (ends[:2], ends[2:]))
        words[min(k, other)], words[max(k, other)] = ("{}-{}".format(*pair) for pair in pairs)
    return "".join(words)


CHANGES = (changed_byte, changed_word, changed_line, changed_number, changed_freely)


def reports(draw, known):
    """A list, and for each query the right report: of the program, or where it does not know the word by brute force."""
    texts = [draw.choice(SMALL) if draw.randrange(3) else random_text(draw, draw.choice([4, 6, 6, 8]), draw.random() / 2) for _ in range(draw.randrange(1, 5))]
    data = lines(texts)
    if draw.randrange(4) == 0:
        data = spoiled(draw, data)
    for words in [*draw.sample(QUERIES, 9), *([word] for word in NEW), ["graph"], draw.choice([["kinds", "skip"], ["leaves", "skip"]])]:
        if words[0] not in NEW or known[words[0]]:
            report = told(words, data)[1]
        else:
            found = good_lines(data)
            report = lines(row for number, text in found for row in brute_lists.lines(words[0], number, text))
        yield words, data, report
    file = mcg.Graph(texts[0]).to_text().encode()
    yield ["encode"], file, told(["encode"], file)[1]


def good_lines(data):
    """The lines of a list up to the first bad one, with their numbers."""
    found = []
    for number, line in enumerate(io.BytesIO(data), 1):
        if number == 1 and line in mcg.graph6.HEADER_LINES:
            continue
        if mcg.graph6.fault_kind(line) is not None:
            break
        found.append((number, mcg.graph6.bare(line.decode("latin-1"))))
    return found


def is_right(words, data, report, changed):
    """Whether an accepted report is right: where nothing is free only the report itself is, and else what each line says is asked of
    the brute force."""
    if words[0] not in ("matching", "ears") or not changed.endswith("\n"):
        return changed == report
    graphs, rows = good_lines(data), changed.split("\n")[:-1]
    if words[0] == "ears":
        graphs = [(number, text) for number, text in graphs if brute_lists.brute6(text).is_covered()]
        return len(rows) == len(graphs) and all(brute_lists.is_right_ears(row, *it) for row, it in zip(rows, graphs))
    return len(rows) == len(graphs) and all(brute_lists.is_right_matching(row, text) for row, (_, text) in zip(rows, graphs))


def fuzz(seed, lists, changes):
    """Changes reports; returns the numbers of changed reports and of accepted ones by word, and those accepted wrongly."""
    draw, made, accepted, wrong = random.Random(seed), {}, {}, []
    known = {word: knows(word) for word in NEW}
    for _ in range(lists):
        for words, data, right in reports(draw, known):
            report = right.decode("latin-1")
            for k in range(changes):
                changed = draw.choice(CHANGES)(draw, report) if re.search("[0-9]", report) else draw.choice(["x\n", "\n", "C~\n", "1"])
                if words[0] == "matching" and k % 3 == 1:
                    changed = lines(brute_lists.matching_line(text, draw) for _, text in good_lines(data)).decode()
                if changed == report:
                    continue
                made[words[0]] = made.get(words[0], 0) + 1
                if list(Judged(io.BytesIO(data), io.BytesIO(changed.encode("latin-1")), words)):
                    continue
                accepted[words[0]] = accepted.get(words[0], 0) + 1
                try:
                    is_so = is_right(words, data, report, changed)
                except (IndexError, KeyError, ValueError):
                    is_so = False
                if not is_so:
                    wrong.append((words, data, report, changed))
    return made, accepted, wrong


class Fuzz(unittest.TestCase):
    def test_changed_reports(self):
        made, accepted, wrong = fuzz(71, 12, 7)
        self.assertEqual(wrong, [])
        self.assertGreaterEqual(sum(made.values()), 1000)
        self.assertEqual(set(made), {"kinds", "leaves", "elementary", "select", "matching", "cuts", "ears", "graph", "encode"})
        self.assertEqual(set(accepted), {"matching", "ears"})
        print(f"list fuzz: {sum(made.values())} changed reports, {sum(accepted.values())} of them other right ones: {accepted}")


if __name__ == "__main__":
    numbers = [int(it) for it in sys.argv[1:]]
    made, accepted, wrong = fuzz(numbers[2] if len(numbers) > 2 else 72, *numbers[:2])
    print(sum(made.values()), "changed reports:", made, "accepted:", accepted, "wrongly:", len(wrong))
    for words, data, report, changed in wrong[:5]:
        print(f"--- {words} {data!r}\n--- {report!r}\n--- {changed!r}")
    sys.exit(1 if wrong or not made else 0)
