"""The command tools/view."""
import argparse
import sys

from documents.places import NotJson, read_json
from running.command import NO_INPUT, NO_PROGRAM, Refused, answer_to, read_document
from running.words import Words
from views.html import view
from views.model import Model

MALFORMED = 5


def main(arguments):
    """Makes the view of a document and writes it."""
    words = parser().parse_args(arguments)
    wanted = Words(file=words.file, viewport=words.viewport)
    try:
        data = read_document(wanted)
        if words.report is None:
            answer = answer_to(wanted, data, caught=True)
            if answer is None:
                return NO_PROGRAM
            sys.stderr.write(answer.line)
            if answer.status != 0:
                return answer.status
            report = answer.report
        else:
            with open(words.report, "rb") as file:
                report = file.read()
        text = view(Model(read_json(data), report.decode("utf-8")).data())
    except Refused as error:
        return error.args[0]
    except OSError as error:
        print(f"view: {error.filename} can't be read: {error.strerror}", file=sys.stderr)
        return NO_INPUT
    except NotJson as error:
        print(f"view: {words.file}: {error}", file=sys.stderr)
        return MALFORMED
    write(text, words.output)
    return 0


def write(text, path):
    """Writes the view to a file, or to standard output."""
    if path is None:
        sys.stdout.buffer.write(text.encode("utf-8"))
        return
    with open(path, "w", encoding="utf-8") as file:
        file.write(text)


def parser():
    """The words of the command line."""
    words = argparse.ArgumentParser(prog="tools/view", description="Makes one HTML file of a document or a page and its report.")
    words.add_argument("file", help="a document, or a page FILE.html")
    words.add_argument("--report", help="the report of the document; where it is absent the program computes it")
    words.add_argument("--viewport", metavar="WxH", help="the size of the viewport of a page (1280x720)")
    words.add_argument("-o", "--output", help="the file to write (standard output)")
    return words
