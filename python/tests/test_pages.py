"""The page of a graph: what it says is what the programs say, in a browser and without one."""
import html
import importlib.util
import os
import re
import shutil
import subprocess
import sys
import tempfile
import unittest
from html.parser import HTMLParser

from draw_support import example, grown, needs_layout
from support import ROOT, mcg
from test_draw import ran

CHROMIUM = shutil.which("chromium")
DRIVER = shutil.which("chromedriver")
HAS_BROWSER = bool(CHROMIUM and DRIVER and importlib.util.find_spec("selenium"))
NAMES = ["u", "v", "a", "b & c", "x", "<b>"]


def named():
    """Two copies of K4 on an edge, with a vertex called <b>."""
    return [tuple(NAMES[v - 1] for v in ends) for ends in example("two_k4").ends]


def reported(*words):
    """What `mcg` writes for a graph of the examples."""
    done = subprocess.run([os.environ["MCG"], words[0], f"{ROOT}/examples/{words[1]}.mcg", *words[2:]], capture_output=True, text=True)
    return done.stdout


class Elements(HTMLParser):
    """The elements of a page, with a check that each is closed, and the text of each `pre`."""

    EMPTY = {"meta"}

    def __init__(self, page):
        super().__init__()
        self.stack, self.found, self.reports, self.ids = [], [], [], []
        self.feed(page)
        self.close()
        assert not self.stack, self.stack

    def handle_starttag(self, tag, attributes):
        self.found.append((tag, dict(attributes)))
        self.ids += [value for name, value in attributes if name == "id"]
        if tag not in self.EMPTY:
            self.stack.append(tag)
        if tag == "pre":
            self.reports.append("")

    def handle_startendtag(self, tag, attributes):
        self.found.append((tag, dict(attributes)))

    def handle_endtag(self, tag):
        assert self.stack.pop() == tag, (tag, self.stack)

    def handle_data(self, text):
        if self.stack and self.stack[-1] == "pre":
            self.reports[-1] += text


@needs_layout
class TestPage(unittest.TestCase):
    def test_reports_are_those_of_the_programs(self):
        made = Elements(mcg.draw.page(example("chain"), "chain"))
        wanted = [reported("analyse", "chain"), reported("decompose", "chain", "first"), reported("ears", "chain"), reported("decompose", "chain", "last")]
        self.assertEqual(made.reports[:4], wanted)
        self.assertRegex(made.reports[4], "^same leaves 4 moves [0-9]+\n")

    def test_nothing_is_loaded_and_names_stay_names(self):
        page = mcg.draw.page(named(), "a page with <b> & more")
        made = Elements(page)
        self.assertEqual(len(made.ids), len(set(made.ids)))
        for tag, attributes in made.found:
            self.assertNotIn(tag, ("link", "img", "iframe", "b/"))
            self.assertFalse({"src", "srcset"} & set(attributes), tag)
            self.assertTrue(attributes.get("href", "#").startswith("#"))
        self.assertEqual(set(re.findall("https?://[^\"' )]*", page)), {"http://www.w3.org/2000/svg"})
        self.assertNotRegex(page, "url\\(|@import")
        self.assertGreater(page.count("&lt;b&gt;"), 10)
        self.assertIn("<h1>a page with &lt;b&gt; &amp; more</h1>", page)
        self.assertNotIn("<b></text>", page)

    def test_graphs_that_are_not_matching_covered(self):
        for edges, words in (
            ([(1, 2), (2, 3)], "odd components for"),
            ([(1, 2), (3, 4)], "are in different components"),
            ([(1, 2), (2, 3), (3, 4)], "is in no perfect matching"),
            (([1], []), "fewer than two vertices"),
        ):
            page = html.unescape(re.sub("<[^>]*>", "", mcg.draw.page(edges)))
            self.assertIn(words, page)
            self.assertIn("not matching covered", page)

    def test_all_steps_are_there_without_a_script(self):
        graph = example("chain")
        page = mcg.draw.page(graph)
        self.assertEqual(page.count('class="step"'), 1 + len(mcg.ears(graph).steps) + 1 + len(mcg.compare(graph, mcg.decompose(graph), mcg.decompose(graph, "last")).moves))
        self.assertEqual(page.count('class="node"'), 2 * len(mcg.decompose(graph).leaves) - 1)

    def test_the_command(self):
        with tempfile.TemporaryDirectory() as folder:
            for words, status in (
                ([f"{ROOT}/examples/two_k4.mcg", "-o", f"{folder}/a.html"], 0),
                (["C~", "-o", f"{folder}/b.html", "--title", "K4"], 0),
                ([f"{folder}/none", "-o", f"{folder}/c.html"], 1),
                ([f"{ROOT}/examples/two_k4.ears", "-o", f"{folder}/c.html"], 1),
                ([], 2),
            ):
                environment = {**os.environ, "PYTHONPATH": f"{ROOT}/python"}
                done = subprocess.run([sys.executable, "-m", "mcg", "page", *words], capture_output=True, text=True, env=environment)
                self.assertEqual(done.returncode, status, done.stderr)
                self.assertEqual(bool(done.stderr), status != 0)
            self.assertEqual(sorted(os.listdir(folder)), ["a.html", "b.html"])
            with open(f"{folder}/b.html") as file:
                self.assertIn("<h1>K4</h1>", file.read())


class Bare(unittest.TestCase):
    """The page without NumPy and NetworkX."""

    def test_everything_is_there(self):
        """The vertices are on a circle, the tree is in outline, and ears and moves have their steps."""
        code = f"""
import mcg
with open({f"{ROOT}/examples/two_k4.mcg"!r}) as file:
    page = mcg.draw.page(mcg.Graph.from_text(file.read()))
print([page.count(it) for it in ("<section", "<svg", 'class="step"', 'class="node"', "<pre>")], "= {{1, 3, 4}}</li>" in page)
"""
        self.assertEqual(ran(code, "numpy", "networkx", "matplotlib"), "[5, 9, 7, 0, 5] True\n")

    def test_the_command(self):
        with tempfile.TemporaryDirectory() as folder:
            words = ["page", f"{ROOT}/examples/two_k4.mcg", "-o", f"{folder}/a.html"]
            said = ran(f"from mcg.__main__ import main\nprint(main({words!r}))", "numpy", "networkx")
            self.assertEqual(said, "0\n")
            with open(f"{folder}/a.html", encoding="utf-8") as file:
                self.assertIn("<h1>two_k4.mcg</h1>", file.read())

    def test_graphs_that_are_not_matching_covered(self):
        self.assertIn("not matching covered", ran("import mcg; print(mcg.draw.page([(1, 2), (2, 3)]))", "numpy", "networkx"))


@needs_layout
@unittest.skipUnless(HAS_BROWSER, "chromium, chromedriver or selenium is not installed")
class TestBrowser(unittest.TestCase):
    """The page in headless Chromium."""

    @classmethod
    def setUpClass(cls):
        from selenium import webdriver
        from selenium.webdriver.chrome.service import Service

        options = webdriver.ChromeOptions()
        options.binary_location = CHROMIUM
        for it in ("--headless=new", "--no-sandbox", "--disable-gpu", "--disable-dev-shm-usage", "--window-size=1280,900"):
            options.add_argument(it)
        cls.browser = webdriver.Chrome(service=Service(DRIVER), options=options)
        cls.folder = tempfile.TemporaryDirectory()
        for name, graph in (("named", named()), ("chain", example("chain")), ("large", grown(1, 9))):
            with open(f"{cls.folder.name}/{name}.html", "w", encoding="utf-8") as file:
                file.write(mcg.draw.page(graph, f"{name} <b>"))

    @classmethod
    def tearDownClass(cls):
        cls.browser.quit()
        cls.folder.cleanup()

    def open(self, name):
        self.browser.get(f"file://{self.folder.name}/{name}.html")

    def all(self, selector):
        from selenium.webdriver.common.by import By

        return self.browser.find_elements(By.CSS_SELECTOR, selector)

    def shown(self, selector):
        return [k for k, step in enumerate(self.all(selector)) if step.is_displayed()]

    def test_ears_step_by_step(self):
        from selenium.webdriver.common.keys import Keys

        self.open("chain")
        ears = mcg.ears(example("chain"))
        slider, last = self.all("#ears input[type=range]")[0], len(ears.steps)
        self.assertEqual(self.shown("#ears .step"), [0])
        for at, step in enumerate(ears.steps, 1):
            slider.send_keys(Keys.ARROW_RIGHT)
            self.assertEqual(self.shown("#ears .step"), [at])
            told = " and ".join(" ".join(map(str, ear.path)) for ear in step)
            kind = ("single", "double")[len(step) - 1]
            caption = self.all("#ears .step figcaption")[at].text
            self.assertEqual(caption, f"step {at} adds the {kind} ear {told}")
            self.assertEqual(self.all("#ears output")[0].text, f"{at} of {last}")
        box = self.all("#ears .steps")[0]
        for key, at in ((Keys.HOME, 0), (Keys.END, last), (Keys.ARROW_LEFT, last - 1)):
            box.send_keys(key)
            self.assertEqual(self.shown("#ears .step"), [at])

    def test_moves_one_by_one(self):
        self.open("chain")
        graph = example("chain")
        moves = mcg.compare(graph, mcg.decompose(graph), mcg.decompose(graph, "last")).moves
        for at, move in enumerate(moves):
            self.assertEqual(self.shown("#moves .step"), [at])
            caption = self.all("#moves .step figcaption")[at].text
            self.assertIn(type(move).__name__, caption)
            if isinstance(move, mcg.Switch):
                (leaves,), (joins,) = move.leaves, move.joins
                self.assertIn(f"{leaves} leaves, {joins} joins", caption)
            self.all("#moves button[aria-label=on]")[0].click()
        self.assertIn("this is the second decomposition", self.all("#moves .step figcaption")[-1].text)

    def test_the_tree_opens(self):
        from selenium.webdriver.common.keys import Keys

        self.open("chain")
        parts = self.all(".tree details")
        self.assertEqual([it.get_attribute("open") is not None for it in parts], [True, False, False])
        parts[1].find_element("tag name", "summary").send_keys(Keys.ENTER)
        self.assertIsNotNone(parts[1].get_attribute("open"))
        self.all("[data-open=all]")[0].click()
        self.assertTrue(all(it.get_attribute("open") is not None for it in parts))
        self.all("[data-open=none]")[0].click()
        self.assertFalse(any(it.get_attribute("open") is not None for it in parts))

    def test_the_map_leads_to_a_graph(self):
        from selenium.webdriver.common.keys import Keys

        self.open("large")
        link = self.all(".map a")[-2]
        place = link.get_attribute("href")
        place = place if isinstance(place, str) else self.browser.execute_script("return arguments[0].getAttribute('href')", link)
        self.browser.execute_script("arguments[0].focus()", link)
        self.browser.switch_to.active_element.send_keys(Keys.ENTER)
        self.browser.implicitly_wait(2)
        self.assertTrue(self.browser.find_element("id", place.split("#")[1]).is_displayed())

    def test_names_stay_names(self):
        self.open("named")
        self.assertEqual(self.all("h1")[0].text, "named <b>")
        self.assertTrue(any(it.text == "<b>" for it in self.all("svg text")))
        self.assertIn("{u, v}", self.all("#graph dl")[0].text)

    def test_narrow_and_wide(self):
        count = 0
        for wide in (480, 1280):
            self.browser.set_window_size(wide, 900)
            for name in ("named", "chain", "large"):
                self.open(name)
                over = self.browser.execute_script("return document.documentElement.scrollWidth - document.documentElement.clientWidth")
                self.assertLessEqual(over, 0, (name, wide))
                count += 1
        self.assertEqual(count, 6)

    def test_reports_are_there(self):
        self.open("chain")
        found = [it.get_attribute("textContent") for it in self.all("#reports pre")]
        self.assertEqual(found[0], reported("analyse", "chain"))
        self.assertEqual(found[2], reported("ears", "chain"))


if __name__ == "__main__":
    unittest.main()
