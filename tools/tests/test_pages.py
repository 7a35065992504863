"""Pages without a browser: media queries, selectors, shorthands, the order of the cascade, and what is left out."""
import os
import tempfile
import unittest

from tests.start import PAGES, need_packages

need_packages()
import tinycss2  # noqa: E402

from browser.calculation import same_everywhere, worth  # noqa: E402
from documents.styles import winners  # noqa: E402
from pages.media import Screen, matches  # noqa: E402
from pages.page import no_report, read_page  # noqa: E402
from pages.shorthands import expand  # noqa: E402
from pages.supports import supported  # noqa: E402

MEDIA = (
    ("", True), ("screen", True), ("print", False), ("all and (min-width: 600px)", True), ("(max-width: 37.5em)", False), ("only screen and (orientation: landscape)", True),
    ("not print", True), ("not all and (min-width: 1px)", False), ("print, screen", True), ("(width >= 1000px)", True), ("(400px < width <= 1280px)", True), ("(1280px > width)", False),
    ("(prefers-color-scheme: dark)", False), ("(prefers-reduced-motion: reduce)", False), ("(aspect-ratio: 16/9)", True), ("(min-resolution: 2dppx)", False),
    ("(min-width: 1px) or (max-width: 1px)", True), ("(not (min-width: 1px))", False), ("(unheard: of)", None), ("screen and (unheard: of)", None), ("print and (unheard: of)", False), ("(hover)", True),
)
SUPPORTS = (
    ("(display: grid)", True), ("not (display: grid)", False), ("(a: b) and (c: d)", True), ("(-moz-appearance: none)", False), ("(-moz-a: b) or (c: d)", True),
    ("selector(a > b)", True), ("selector(a >)", False), ("((a: b))", True), ("font-tech(color)", None),
)
SHORTHANDS = (
    ("margin: 1px 2px 3px", {"margin-top": "1px", "margin-right": "2px", "margin-bottom": "3px", "margin-left": "2px"}),
    ("padding: 0", dict.fromkeys(("padding-top", "padding-right", "padding-bottom", "padding-left"), "0")),
    ("inset: auto 1px", {"top": "auto", "right": "1px", "bottom": "auto", "left": "1px"}),
    ("gap: 1px calc(1px + 2%)", {"row-gap": "1px", "column-gap": "calc(1px + 2%)"}),
    ("margin-inline: 1px", {"margin-left": "1px", "margin-right": "1px"}),
    ("inset-block-end: 3px", {"bottom": "3px"}),
    ("inline-size: 4px", {"width": "4px"}),
    ("background: url(a.png) no-repeat #fff", {"background-color": "#fff"}),
    ("background: none", {"background-color": "transparent"}),
    ("flex: 2", {"flex-grow": "2", "flex-shrink": "1"}),
    ("flex: none", {"flex-grow": "0", "flex-shrink": "0"}),
    ("font: italic 12px/1.5 serif", {"font-size": "12px", "line-height": "1.5"}),
    ("font: inherit", {"font-size": "inherit", "line-height": "inherit"}),
    ("margin: var(--a)", dict.fromkeys(("margin-top", "margin-right", "margin-bottom", "margin-left"))),
    ("padding: 1px -2px", {}),
    ("margin: 1px red", {}),
    ("box-shadow: none", None),
)

SHORTHAND = "--cssvars-shorthand-"


def tokens(text):
    """The component values of a text."""
    return tinycss2.parse_component_value_list(text)


class Conditions(unittest.TestCase):
    """Conditions of @media and @supports."""

    def test_media(self):
        for text, holds in MEDIA:
            with self.subTest(text=text):
                self.assertIs(matches(tokens(text), Screen(1280, 720)), holds)

    def test_supports(self):
        for text, holds in SUPPORTS:
            with self.subTest(text=text):
                self.assertIs(supported(tokens(text)), holds)

    def test_shorthands(self):
        for text, longhands in SHORTHANDS:
            with self.subTest(text=text):
                found = expand(tinycss2.parse_one_declaration(text))[0]
                self.assertEqual(None if found is None else dict(found), longhands)


class Calculations(unittest.TestCase):
    """What calculations are worth, by which values of the program and of a browser are compared."""

    def test_worth(self):
        for text, number in (("calc(1px + 2 * 3px - 50%)", -43), ("clamp(1px, 50%, 9px)", 9), ("calc(100% - (2 * 3px) / 4)", 98.5), ("red", None), ("1em", None)):
            with self.subTest(text=text):
                self.assertEqual(worth(text, 100), number)

    def test_same_everywhere(self):
        self.assertTrue(same_everywhere("min(8px, 5%)", "min(10px, 5%, 8px)"))
        self.assertFalse(same_everywhere("min(8px, 5%)", "min(10px, 5%)"))


class Pages(unittest.TestCase):
    """Documents that are made of pages."""

    def read(self, html, report_of=no_report, **files):
        """Reads a page with these files beside it."""
        with tempfile.TemporaryDirectory() as folder:
            for name, text in {"page.html": html, **files}.items():
                with open(os.path.join(folder, name), "w", encoding="utf-8") as file:
                    file.write(text)
            return read_page(os.path.join(folder, "page.html"), report_of=report_of)

    def won(self, page, index):
        """The values of the winning declarations of an element that its author made."""
        style = page.document["elements"][index].get("style", "")
        return {name: one.value for name, one in winners(style).items() if one.place != "browser"}

    def test_parents_and_labels(self):
        page = self.read("<!doctype html><title>t</title><div id=a><p class='b c d'>x</p></div>")
        self.assertEqual([(one["parent"], one["label"]) for one in page.document["elements"]], [
            (None, "html"), (0, "html > head"), (1, "head > title"), (0, "html > body"), (3, "div#a"), (4, "div#a > p.b.c")])

    def test_the_cascade(self):
        page = self.read("""<!doctype html><style>
            @layer one, two;
            @layer two { p { --a: two; --b: two !important } }
            @layer one { p { --a: one; --b: one !important } }
            #x { --c: id } p.y { --c: class; --d: class !important }
            </style><p id=x class=y style="--d: attribute; --e: attribute">""")
        self.assertEqual(self.won(page, 4), {"--a": "two", "--b": "one", "--c": "id", "--d": "class", "--e": "attribute"})

    def test_imports_and_links(self):
        page = self.read("<!doctype html><link rel=stylesheet href='a%20b.css?v=1'><p>", **{
            "a b.css": "@import 'c.css' screen; p { --a: 1 }", "c.css": "p { --a: 2; --c: 3 }"})
        self.assertEqual(self.won(page, 4), {"--c": "3", "--a": "1"})

    def test_what_is_left_out_is_told(self):
        page = self.read("<!doctype html>\n<link rel=stylesheet href='https://example.org/a.css'>\n<style>\n@container (width > 1px) { p { --a: 1 } }\np { box-shadow: none }\n</style>")
        told = [line.partition("page.html")[2] or line for line in page.left_out.lines()]
        self.assertEqual(told, [
            ":2: left out: the sheet https://example.org/a.css, which is no local file",
            ":4: left out: @container (the sizes of containers aren't known)",
            "dropped: 1 declarations of 1 properties that the program doesn't know (box-shadow 1)"])

    def test_registrations_form_the_sheet(self):
        page = self.read("<!doctype html><style>@media screen { @property --a { syntax: '*'; inherits: false } } @media print { @property --b {} }</style>")
        self.assertEqual(page.document["sheet"], "@property --a { syntax: '*'; inherits: false }".replace("'", '"'))

    def test_shorthands_with_var(self):
        page = "<!doctype html><style>\np { --a: 1px; padding: var(--a) 2px; margin: var(--b); gap: var(--c) }</style><p style='padding-left: 7px'>"
        asked = []

        def report_of(document):
            asked.append(document)
            return f"4 {SHORTHAND}0 = 1px 2px\n4 {SHORTHAND}1 invalid\n4 {SHORTHAND}1 ! missing\n4 {SHORTHAND}2 = red\n"

        found = self.read(page, report_of)
        self.assertEqual(asked[0]["show"], [f"{SHORTHAND}{number}" for number in range(3)])
        self.assertIn(f"{SHORTHAND}0:  var(--a) 2px;", asked[0]["elements"][4]["style"])
        self.assertEqual(self.won(found, 4), {
            "--a": "1px", "padding-top": "1px", "padding-right": "2px", "padding-bottom": "1px", "padding-left": "7px",
            **dict.fromkeys(("margin-top", "margin-right", "margin-bottom", "margin-left"), "var(--b)"), "row-gap": "var(--c)", "column-gap": "var(--c)"})
        self.assertEqual(list(found.left_out.lines()), [])
        without = self.read(page)
        self.assertEqual(self.won(without, 4), {"--a": "1px", "padding-left": "7px"})
        self.assertEqual([line.partition("page.html")[2] for line in without.left_out.lines()],
                         [f":2: left out: shorthand {name} with var()" for name in ("padding", "margin", "gap")])

    def test_places_may_be_left_out(self):
        with tempfile.TemporaryDirectory() as folder:
            path = os.path.join(folder, "page.html")
            with open(path, "w", encoding="utf-8") as file:
                file.write("<!doctype html><style>p { --a: 1 }</style><p>")
            with_places, without = (read_page(path, with_places=with_places).text() for with_places in (True, False))
        self.assertIn("/* ", with_places)
        self.assertNotIn("/* ", without)

    def test_pages_of_the_folder_are_read(self):
        for name in ("cascade.html", "tokens.html", "properties.html"):
            page = read_page(os.path.join(PAGES, name))
            self.assertGreater(len(page.document["elements"]), 30)


if __name__ == "__main__":
    unittest.main()
