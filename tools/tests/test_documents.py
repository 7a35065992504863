"""What the tools read of documents, reports and styles."""
import glob
import json
import os
import unittest

from documents.places import NotJson, read_json
from documents.report import Line, Note, read_report, with_labels
from documents.schema import findings, load_schema
from documents.styles import items, unescaped, winners
from tests.start import TOP

NOT_JSON = (
    (b'{"elements":[}', "line 1, column 14: Expecting value"),
    (b'{"a":1,\n "b":NaN}', "line 2, column 6: NaN is no JSON"),
    (b'{"a":\n"\xc3\xa9\xff"}', "line 2, column 3: not UTF-8"),
    (b"[" * 128, "line 1, column 128: nested deeper than 127"),
    (b'["[[", ' + b"[" * 127, "line 1, column 134: nested deeper than 127"),
    (b"", "line 1, column 1: Expecting value"),
)
# Documents that the schema doesn't allow, with the place and a word of what it finds.
NOT_ALLOWED = (
    ({"elements": [{"parent": None, "sytle": ""}]}, "elements/0", "style"),
    ({"elements": [{"parent": None}], "shwo": []}, "", "show"),
    ({"element": [], "elements": [{"parent": None}]}, "", None),
    ({"elements": []}, "elements", None),
    ({"elements": [{"parent": 0}]}, "elements/0/parent", None),
    ({"elements": [{"parent": None}, {"parent": None}]}, "elements/1/parent", None),
    ({"elements": [{"parent": None}], "show": ["--"]}, "show/0", None),
    ({"elements": [{"parent": None}], "viewport": {"width": 1}}, "viewport", None),
    ({"elements": [{"parent": None}], "viewport": {"width": -1, "height": 0}}, "viewport/width", None),
    ({"elements": [{"parent": None}], "commands": [{"do": "get", "element": 0}]}, "commands/0", None),
    ({"elements": [{"parent": None}], "commands": [{"do": "paint"}]}, "commands/0/do", None),
)
STYLE = " /* a.css:3 */ --a: 1 ! important; @x {;} foo: 1; bar; --c\\:d: a/* z */b; /* q */ ; --e: {a; b}; --f: \";\"; --a: 2; COLOR: red"


class Documents(unittest.TestCase):
    """Documents and their schema."""

    def test_places(self):
        for data, told in NOT_JSON:
            with self.subTest(data=data[:20]), self.assertRaises(NotJson) as caught:
                read_json(data)
            self.assertEqual(str(caught.exception), told)

    def test_examples_fit_the_schema(self):
        for path in glob.glob(os.path.join(TOP, "examples", "*.json")):
            if not os.path.exists(path.replace(".json", ".status")):
                with self.subTest(path=path), open(path, "rb") as file:
                    self.assertEqual(list(findings(json.load(file))), [])

    def test_what_the_schema_finds(self):
        for document, place, meant in NOT_ALLOWED:
            with self.subTest(document=document):
                found = next(findings(document))
                self.assertEqual((found.place, found.meant), (place, meant))

    def test_the_package_jsonschema_finds_the_same(self):
        try:
            import jsonschema
        except ImportError:
            self.skipTest("the package jsonschema isn't here; our own reader of the schema was tested alone")
        checker = jsonschema.Draft7Validator(load_schema())
        for document, place, _ in NOT_ALLOWED:
            with self.subTest(document=document):
                self.assertIn(place, ["/".join(map(str, error.path)) for error in checker.iter_errors(document)])
        for path in glob.glob(os.path.join(TOP, "examples", "*.json")):
            if not os.path.exists(path.replace(".json", ".status")):
                with open(path, "rb") as file:
                    self.assertTrue(checker.is_valid(json.load(file)), path)


class Reports(unittest.TestCase):
    """The lines of reports."""

    def test_lines(self):
        text = "# sheet rule 0: skipped\n# element 2 declaration 3: bad var\n0 --a = 1px  2\n0 --e =\n1 --\\31 x\\:y invalid\n1 --a ! cycle\n"
        self.assertEqual(list(read_report(text)), [
            Note(2, 3, "bad var"), Line(0, "--a", "1px  2"), Line(0, "--e", ""), Line(1, "--\\31 x\\:y"), Line(1, "--a", None, "cycle")])

    def test_names_of_elements(self):
        report = b"# sheet rule 0: skipped\n# element 1 declaration 0: bad value\n0 --a = 0\n1 --a = 1\n"
        self.assertEqual(with_labels(report, ["html", "html > p"]), b"# sheet rule 0: skipped\n# element #1 html > p declaration 0: bad value\n#0 html --a = 0\n#1 html > p --a = 1\n")


class Styles(unittest.TestCase):
    """The declarations of styles."""

    def test_items(self):
        found = [(one.name, one.value, one.important) for one in items(STYLE)]
        self.assertEqual(found, [
            ("--a", "1", True), (None, "@x {;}", False), ("foo", "1", False), (None, "bar", False), ("--c:d", "a/**/b", False),
            ("--e", "{a; b}", False), ("--f", '";"', False), ("--a", "2", False), ("color", "red", False)])

    def test_places_of_items(self):
        self.assertEqual([one.place for one in items(STYLE)][:5], ["a.css:3"] * 5)

    def test_lines_of_one_file(self):
        self.assertEqual([one.place for one in items("/* a:b.css:3 */ --a: 1; /* :4 */ --b: 2; --c: 3; /* browser */ --d: 4")],
                         ["a:b.css:3", "a:b.css:4", "a:b.css:4", "browser"])

    def test_winners(self):
        self.assertEqual({name: one.value for name, one in winners(STYLE, ignored={2}).items()},
                         {"--a": "1", "--c:d": "a/**/b", "--e": "{a; b}", "--f": '";"', "color": "red"})

    def test_names_without_escapes(self):
        self.assertEqual(unescaped("--\\31 23\\:a"), "--123:a")


if __name__ == "__main__":
    unittest.main()
