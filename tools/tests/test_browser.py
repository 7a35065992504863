"""Pages in a real browser: each custom property and each ordinary one on each element against the report."""
import os
import sys
import unittest

from tests.start import PAGES, need_packages, need_program, start_browser

need_packages()
from tests.agreement import compare  # noqa: E402
from tests.known import KNOWN  # noqa: E402

# The pages of design systems, with the file that Debian's package of them brings.
SYSTEMS = {
    "bootstrap.html": ("libjs-bootstrap5", "/usr/share/javascript/bootstrap5/css/bootstrap.css"),
    "doxygen.html": ("doxygen-awesome-css", "/usr/share/doxygen-awesome-css/doxygen-awesome.css"),
}


class PagesAgree(unittest.TestCase):
    """What the program says of a page is what the browser computes, or differs for a known reason."""

    @classmethod
    def setUpClass(cls):
        need_program()
        cls.browser = start_browser()
        cls.found = {}  # what came of the pages, by name and size

    @classmethod
    def tearDownClass(cls):
        cls.browser.__exit__()

    def compared(self, name, width=1280, height=720):
        """What comes of comparing a page of the folder, once."""
        package, file = SYSTEMS.get(name, (None, None))
        if file is not None and not os.path.exists(file):
            self.skipTest(f"{package} isn't installed")
        if (name, width, height) not in self.found:
            self.found[name, width, height] = compare(self.browser, os.path.join(PAGES, name), width, height)
        return self.found[name, width, height]

    def agree(self, name, width=1280, height=720):
        """Compares a page of the folder, and says how many values agree."""
        found = self.compared(name, width, height)
        lines = list(found.spoken())
        print(f"{name} at {width}x{height}: {lines[0]}", *lines[1:], sep="\n", file=sys.stderr)
        told = "\n".join(f"#{one.element} {one.label} {one.name}: {one.ours!r}, the browser {one.browsers!r}" for one in found.unknown()[:40])
        self.assertFalse(found.unknown(), told)
        self.assertGreater(found.agree, 0)

    def test_each_known_difference_is_one_of_the_pages(self):
        found = {one.reason for name in ("cascade.html", "tokens.html", "properties.html") for one in self.compared(name).differences}
        self.assertEqual(found - {""}, {reason for reason, _ in KNOWN})

    def test_cascade(self):
        self.agree("cascade.html")

    def test_cascade_on_a_small_screen(self):
        self.agree("cascade.html", 380, 800)

    def test_tokens(self):
        self.agree("tokens.html")

    def test_properties(self):
        self.agree("properties.html")

    def test_bootstrap(self):
        self.agree("bootstrap.html")

    def test_bootstrap_on_a_small_screen(self):
        self.agree("bootstrap.html", 600, 900)

    def test_doxygen(self):
        self.agree("doxygen.html")
