"""The view in a real browser: elements are chosen, searched and folded, and what is shown is checked."""
import os
import tempfile
import time
import unittest

from tests.start import start_browser
from views.html import view
from views.model import Model

DOCUMENT = {
    "page": "a </script> page", "sheet": "@property --own { syntax: '*'; inherits: false; initial-value: 1 }",
    "elements": [
        {"parent": None, "label": "html", "style": "/* theme.css:3 */ --brand: #336699; --gap: 2px; --own: 2"},
        {"parent": 0, "label": "html > body", "style": "--gap: 4px !important; foo: 1"},
        {"parent": 1, "label": "body > p.note", "style": "--lost: var(--nothing); --round: var(--round)"},
        {"parent": 1, "label": "body > ul#menu"},
    ],
}
REPORT = """\
# element 1 declaration 1: unknown property
0 --brand = #336699
0 --gap = 2px
0 --own = 2
0 --lost invalid
0 --round invalid
1 --brand = #336699
1 --gap = 4px
1 --own = 1
1 --lost invalid
1 --round invalid
2 --brand = #336699
2 --gap = 4px
2 --own = 1
2 --lost invalid
2 --lost ! missing
2 --round invalid
2 --round ! cycle
3 --brand = #336699
3 --gap = 4px
3 --own = 1
3 --lost invalid
3 --round invalid
"""
MANY = 16_384


class ViewShows(unittest.TestCase):
    """What a view shows, and how it is used."""

    opened = 0

    @classmethod
    def setUpClass(cls):
        cls.browser = start_browser()
        cls.folder = tempfile.TemporaryDirectory()

    @classmethod
    def tearDownClass(cls):
        cls.browser.__exit__()
        cls.folder.cleanup()

    def open(self, document=None, report=REPORT):
        """Opens the view of a document, and waits until it is drawn. Each view is a file of its own, so that none is taken for the one before."""
        ViewShows.opened += 1
        path = os.path.join(self.folder.name, f"view{self.opened}.html")
        with open(path, "w", encoding="utf-8") as file:
            file.write(view(Model(document or DOCUMENT, report).data()))
        self.browser.resize(1200, 800)
        self.browser.open(path)
        self.wait_for("document.querySelector('#label')?.innerText")

    def wait_for(self, script, seconds=60):
        """Waits until a script in the page gives something."""
        ends = time.monotonic() + seconds
        while not self.browser.run(script):
            self.assertLess(time.monotonic(), ends, f"{script} gives nothing within {seconds} seconds")
            self.browser.run("new Promise(done => requestAnimationFrame(done))")

    def shown(self, selector):
        """The texts of what a selector finds, with each run of whitespace as one space."""
        self.browser.run("new Promise(done => requestAnimationFrame(() => requestAnimationFrame(done)))")
        return [" ".join(text.split()) for text in self.browser.run(f"[...document.querySelectorAll({selector!r})].map(one => one.innerText)")]

    def row_of(self, name):
        """The text of the row of a name."""
        return next(text for text in self.shown(".value") if text.split()[0] == name)

    def chosen(self):
        """The label of the chosen element."""
        return self.shown("#label")[0]

    def test_the_root_is_chosen_first(self):
        self.open()
        self.assertEqual(self.chosen(), "html #0")
        self.assertEqual(self.row_of("--brand"), "--brand #336699 declared here theme.css:3")
        self.assertEqual(self.shown(".row"), ["▼ html 3", "▼ body 1", "p.note 2", "ul#menu"])

    def test_keys_walk_the_tree(self):
        self.open()
        for key, label in (("ArrowDown", "body #1"), ("ArrowRight", "p.note #2"), ("End", "ul#menu #3"), ("ArrowLeft", "body #1"), ("Home", "html #0"), ("PageDown", "ul#menu #3")):
            self.browser.press(key)
            self.assertEqual(self.chosen(), label, key)

    def test_elements_fold(self):
        self.open()
        self.browser.press("ArrowDown")
        self.browser.press("ArrowLeft")
        self.assertEqual(self.shown(".row"), ["▼ html 3", "▶ body 1"])
        self.browser.press("ArrowRight")
        self.assertEqual(len(self.shown(".row")), 4)

    def test_where_values_come_from(self):
        self.open()
        self.browser.press("End")
        self.assertEqual(self.row_of("--brand"), "--brand #336699 inherited from #0 html theme.css:3")
        self.assertEqual(self.row_of("--gap"), "--gap 4px inherited from #1 body")
        self.assertEqual(self.row_of("--own"), "--own 1 initial")
        self.assertEqual(self.row_of("--lost"), "--lost invalid (no value) initial")

    def test_causes_in_words(self):
        self.open()
        self.browser.press("i", "i")
        self.assertEqual(self.chosen(), "p.note #2")
        self.assertIn("declared as var(--nothing)", self.row_of("--lost"))
        self.assertIn("to a name that has no value here: --nothing.", self.row_of("--lost"))
        self.assertIn("On a dependency cycle", self.row_of("--round"))

    def test_ignored_declarations(self):
        self.open()
        self.browser.press("ArrowDown")
        self.assertEqual(self.shown(".notes"), ["A declaration is ignored declaration 1: unknown property"])

    def test_colours_have_swatches(self):
        self.open()
        self.wait_for("document.querySelector('.swatch i') !== null")
        self.assertEqual(self.browser.run("getComputedStyle(document.querySelector('.swatch i')).backgroundColor"), "rgb(51, 102, 153)")
        self.assertEqual(len(self.shown(".swatch")), 1)

    def test_search_by_value(self):
        self.open()
        self.browser.press("/", "/")
        self.browser.type("4px")
        self.assertEqual(self.shown("#found"), ["1 element"])
        self.browser.press("Enter")
        self.assertEqual(self.chosen(), "body #1")
        self.assertEqual([text.split()[0] for text in self.shown(".value")], ["--gap"])
        self.assertEqual(self.shown(".row.match"), ["▼ body 1"])

    def test_search_by_name_and_element(self):
        self.open()
        self.browser.press("/", "/")
        self.browser.type("--round")
        self.assertEqual(self.shown("#found"), ["1 element"])
        self.browser.press("Escape")
        self.assertEqual(self.shown("#found"), [""])
        self.browser.press("/", "/")
        self.browser.type("menu")
        self.browser.press("Enter")
        self.assertEqual(self.chosen(), "ul#menu #3")

    def test_filters(self):
        self.open()
        self.assertEqual(self.shown(".filter"), ["All 5", "Declared here 3", "Differs from parent 5", "Invalid 0"])
        self.browser.run("document.querySelector('[data-filter=declared]').click()")
        self.assertEqual([text.split()[0] for text in self.shown(".value")], ["--brand", "--gap", "--own"])

    def test_elements_are_clicked(self):
        self.open()
        x, y = self.browser.run("(r => [r.left + 60, r.top + r.height / 2])(document.getElementById('e2').getBoundingClientRect())")
        self.browser.click(x, y)
        self.assertEqual(self.chosen(), "p.note #2")

    def test_light_and_dark(self):
        papers = []
        for scheme in ("light", "dark"):
            self.browser.prefer(scheme)
            self.open()
            papers.append(self.browser.run("getComputedStyle(document.body).backgroundColor"))
            self.browser.press("t", "t")
            papers.append(self.browser.run("getComputedStyle(document.body).backgroundColor"))
        self.browser.prefer("light")
        self.assertEqual(papers, ["rgb(255, 255, 255)", "rgb(20, 22, 27)", "rgb(20, 22, 27)", "rgb(255, 255, 255)"])

    def test_it_stands_alone(self):
        self.open()
        self.assertEqual(self.browser.run("performance.getEntriesByType('resource').length"), 0)

    def test_as_many_elements_as_a_document_may_have(self):
        elements = [{"parent": None, "style": "--a: 1"}] + [{"parent": index - 1 if index % 5 else 0, "style": f"--a: {index}"} for index in range(1, MANY)]
        self.open({"elements": elements}, "".join(f"{index} --a = {index or 1}\n" for index in range(MANY)))
        self.browser.press("End")
        self.assertEqual(self.chosen(), f"element {MANY - 1} #{MANY - 1}")
        self.assertLess(len(self.shown(".row")), 100)
        self.browser.press("/", "/")
        self.browser.type("12345")
        self.browser.press("Enter")
        self.assertEqual(self.chosen(), "element 12345 #12345")
        self.wait_for("document.getElementById('e12345') !== null")
