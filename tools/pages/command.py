"""The command tools/page."""
import argparse
import re
import sys

from pages.page import MOST_BYTES, read_page
from running.program import report_of


def main(arguments):
    """Reads a page, writes its document to standard output and what is left out to standard error."""
    words = parser().parse_args(arguments)
    width, height = (int(number) for number in words.viewport.split("x"))
    try:
        page = read_page(words.file, width, height, report_of=report_of)
        text = page.text().encode("utf-8", "replace")
        if len(text) > MOST_BYTES:
            page = read_page(words.file, width, height, with_places=False, report_of=report_of)
            text = page.text().encode("utf-8", "replace")
    except OSError as error:
        print(f"page: {words.file} can't be read: {error.strerror}", file=sys.stderr)
        return 3
    for line in page.left_out.lines():
        print(f"page: {line}", file=sys.stderr)
    sys.stdout.buffer.write(text)
    return 0


def parser():
    """The words of the command line."""
    words = argparse.ArgumentParser(prog="tools/page", description="Writes a web page as a document for cssvars (docs/DOCUMENT.md).")
    words.add_argument("file", help="the page; its sheets are read where they lie")
    words.add_argument("--viewport", type=viewport, default="1280x720", metavar="WxH", help="the size of the viewport (1280x720)")
    return words


def viewport(text):
    """Checks the text of a viewport."""
    if not re.fullmatch(r"\d{1,7}x\d{1,7}", text):
        raise argparse.ArgumentTypeError("WIDTHxHEIGHT is wanted, such as 1280x720")
    return text
