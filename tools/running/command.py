"""./run as a whole: reads the words, takes the proved program or a first look, and says what more there is to say."""
import os
import signal
import subprocess
import sys

from documents.places import read_json
from documents.report import with_labels
from running import program, trying
from running.answers import Answer
from running.hints import hint
from running.proving import prove, tell
from running.words import JOBS, BadWords, is_page, read_words

HELP = """\
./run [OPTIONS] [FILE]      computes a document and writes its report; without FILE, or as -, from standard input
./run [OPTIONS] PAGE.html   computes a web page and the sheets that it names (docs/PAGES.md; tools/needs says what that needs)
./run reify [OPTIONS] [FILE]    writes objects of Typed OM for declarations and values, in place of the values
./run gen [--size N]        computes a document of N elements that the program makes itself, and writes three sums of it
./run --prove [FILE]        proves and builds the program first, with a line for each crate
tools/view FILE -o view.html    shows a page or a document in a browser: each element's values, and where they come from

  --limit N         the most tokens of a value after substitution, 1 to 32768 (16384)
  --size N          how many elements gen makes, 1 to 4096 (100)
  --names           names the elements of a page as people do: #3 div.card > p (else by their numbers alone)
  --viewport WxH    the viewport of a page (1280x720)
  --help            this text

The document is a JSON object (docs/DOCUMENT.md, docs/document.schema.json):
  { "viewport": { "width": 1280, "height": 720 },                 if you want another one
    "sheet": "@property --gap { .. }",                            a style sheet, of which the @property rules count
    "elements": [ { "parent": null, "style": "--gap: 2px" },      in tree order: first the root,
                  { "parent": 0, "style": "--pad: var(--gap)" } ],    then each after its parent
    "show": ["--pad"] }                                           the names to show, else all that are declared

exit  line on standard error            when
   0  none                              the whole report was written
   1  run: ..                           no program could be had
   2  cssvars: bad usage, or run: ..    the words aren't as above
   3  cssvars: read fault, or run: ..   the document can't be read
   4  cssvars: too large: PART          more than 16 MiB, 16384 elements or 2048 names
   5  cssvars: malformed: WHAT          no JSON, or a member of a wrong kind; a second line says where
   6  cssvars: out of range: ..         a number of this property of this element is too large or too fine to be kept exactly
   7  cssvars: write fault              the report couldn't be written
   8  cssvars: no memory                memory ran out
"""
MOST_BYTES = 16_777_216
NO_PROGRAM, BAD_WORDS, NO_INPUT = 1, 2, 3
PAGE = os.path.join(program.TOP, "tools", "page")


class Refused(Exception):
    """A page from which no document could be made; its argument is the exit status."""


def main(arguments):
    """Does what the words ask for, and gives the exit status."""
    try:
        words = read_words(arguments)
    except BadWords as error:
        tell(f"{error} (./run --help)")
        return BAD_WORDS
    if words.help:
        sys.stdout.write(HELP)
        return 0
    try:
        if words.prove and not prove():
            return NO_PROGRAM
    except KeyboardInterrupt:
        return 128 + signal.SIGINT
    if words.prove and words.file is None and not words.has_job:
        return 0
    try:
        data = read_document(words)
    except Refused as error:
        return error.args[0]
    except OSError as error:
        tell(f"{words.file or 'standard input'} can't be read: {error.strerror}")
        return NO_INPUT
    return compute(words, data)


def read_document(words):
    """The bytes of the document, one more than the program takes at most."""
    if not JOBS[words.job]:
        return b""
    if is_page(words.file):
        return read_page(words)
    if words.file in (None, "-"):
        return sys.stdin.buffer.read(MOST_BYTES + 1)
    with open(words.file, "rb") as file:
        return file.read(MOST_BYTES + 1)


def read_page(words):
    """The document of a page, by tools/page; what that leaves out it says itself."""
    options = ["--viewport", words.viewport] if words.viewport else []
    ended = subprocess.run([sys.executable, PAGE, *options, "--", words.file], stdout=subprocess.PIPE)
    if ended.returncode != 0:
        raise Refused(ended.returncode)
    return ended.stdout


def compute(words, data):
    """Computes a document, and says more where there is more to say; gives the exit status."""
    answer = answer_to(words, data)
    if answer is None:
        return NO_PROGRAM
    write_report(named_report(answer.report, data) if words.names and answer.report else answer.report)
    sys.stderr.write(answer.line)
    if not is_page(words.file):
        hint(answer.status, answer.line, data)
    return answer.status


def answer_to(words, data, caught=False):
    """The answer of the proved program, or a first look; None where no program could be had."""
    if program.is_current():
        return run_proved(words, data, caught or words.names or is_page(words.file))
    trying.warn(data)
    return trying.look(words, data)


def run_proved(words, data, caught):
    """Runs the proved program. Where its report isn't caught it goes straight to standard output."""
    sink = subprocess.PIPE if caught else None
    ended = subprocess.run([program.PROGRAM, words.job, *words.options], input=data, stdout=sink, stderr=subprocess.PIPE)
    status = ended.returncode if ended.returncode >= 0 else 128 - ended.returncode
    return Answer(status, ended.stderr.decode("utf-8", "replace"), ended.stdout or b"")


def named_report(report, data):
    """A report in which elements are named by their labels in the document."""
    labels = [element.get("label", "") for element in read_json(data)["elements"]]
    return with_labels(report, labels)


def write_report(report):
    """Writes a report to standard output; a reader that has enough is no fault of ours."""
    try:
        sys.stdout.buffer.write(report)
        sys.stdout.buffer.flush()
    except BrokenPipeError:
        os.dup2(os.open(os.devnull, os.O_WRONLY), sys.stdout.fileno())
