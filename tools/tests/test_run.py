"""The command ./run."""
import json
import os
import subprocess
import sys
import tempfile
import unittest

from documents.properties import NAMES
from running import program
from running.words import BadWords, Words, read_words
from tests.start import TOP

RUN = os.path.join(TOP, "run")
TAKEN = (
    ([], Words()),
    (["a.json"], Words(file="a.json")),
    (["a b.json", "--limit", "5"], Words(file="a b.json", options=["--limit=5"])),
    (["--limit=007", "--size", "+5", "-"], Words(file="-", options=["--limit=007", "--size=+5"])),
    (["compute", "a.json"], Words(has_job=True, file="a.json")),
    (["reify", "a.json"], Words(job="reify", has_job=True, file="a.json")),
    (["gen", "--size", "7"], Words(job="gen", has_job=True, options=["--size=7"])),
    (["./compute"], Words(file="./compute")),
    (["--prove"], Words(prove=True)),
    (["--help"], Words(help=True)),
    (["p.html", "--names", "--viewport", "10x20"], Words(file="p.html", names=True, viewport="10x20")),
    (["--", "--names"], Words(file="--names")),
)
REFUSED = (["--limt", "5"], ["--limit"], ["--limit", "0"], ["--limit", "32769"], ["--limit", "5", "--limit=5"], ["a", "b"], ["compute", "compute", "b"], ["--size", "x"],
           ["gen", "a.json"], ["gen", "--names"], ["a.json", "--viewport", "1x1"], ["p.html", "--viewport", "wide"], ["-x"])


def run(*words, given=b""):
    """The status, the output and the lines on standard error of ./run."""
    ended = subprocess.run([sys.executable, RUN, *words], input=given, capture_output=True)
    return ended.returncode, ended.stdout.decode(), ended.stderr.decode().splitlines()


class WordsOfRun(unittest.TestCase):
    """What is taken and what is refused."""

    def test_taken(self):
        for arguments, words in TAKEN:
            with self.subTest(arguments=arguments):
                self.assertEqual(read_words(arguments), words)

    def test_refused(self):
        for arguments in REFUSED:
            with self.subTest(arguments=arguments), self.assertRaises(BadWords):
                read_words(arguments)

    def test_help_and_refusals_build_nothing(self):
        self.assertEqual(run("--help")[0], 0)
        status, output, lines = run("--limt", "5")
        self.assertEqual((status, output, lines), (2, "", ["run: unknown option '--limt' (./run --help)"]))
        self.assertEqual(run("no such file.json")[0], 3)

    def test_crates_stand_behind_those_that_they_use(self):
        order = program.crates_in_order()
        self.assertEqual(order[-1], "cssvars")
        self.assertLess(order.index("cv_token"), order.index("cv_run"))


class AnswersOfRun(unittest.TestCase):
    """What is said of documents, with the built program."""

    @classmethod
    def setUpClass(cls):
        if not program.is_current():
            raise unittest.SkipTest("the program isn't built, or is older than its sources; './run --prove' builds it")

    def test_a_path_with_spaces(self):
        with tempfile.TemporaryDirectory() as folder:
            path = os.path.join(folder, "a b.json")
            with open(path, "w", encoding="utf-8") as file:
                file.write('{"elements":[{"parent":null,"style":"--a: 1"}]}')
            self.assertEqual(run(path)[:2], (0, "0 --a = 1\n"))

    def test_options_are_passed_on(self):
        document = b'{"elements":[{"parent":null,"style":"--a: 1 2"}]}'
        self.assertEqual(run("--limit", "1", given=document)[1], "0 --a invalid\n0 --a ! limit\n")

    def test_a_document_that_the_program_makes(self):
        status, output, lines = run("gen", "--size", "3")
        if lines == ["cssvars: bad usage"]:
            self.skipTest("the program doesn't have the job gen")
        self.assertEqual((status, output, lines), (0, "elements 3\nwidths 15px\npadding 53px\n", []))

    def test_the_place_of_what_is_no_json(self):
        self.assertEqual(run(given=b'{"elements":[}'), (5, "", ["cssvars: malformed: not JSON", "run: line 1, column 14: Expecting value"]))

    def test_the_ordinary_names_are_those_of_the_program(self):
        document = {"elements": [{"parent": None}], "show": list(NAMES)}
        status, output, lines = run(given=json.dumps(document).encode())
        self.assertEqual((status, lines), (0, []))
        self.assertEqual([line.split()[1] for line in output.splitlines()], list(NAMES))

    def test_misspelt_members(self):
        status, output, lines = run(given=b'{"elements":[{"parent":null,"sytle":"--a: 1"}]}')
        self.assertEqual((status, output), (0, ""))
        self.assertEqual(lines, ["run: elements/0: nothing reads the member 'sytle'; is 'style' meant?"])


if __name__ == "__main__":
    unittest.main()
