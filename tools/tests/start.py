"""What tests need before they can begin, else they are left out."""
import os
import unittest

import packages
from running import program

TOP = program.TOP
PAGES = os.path.join(os.path.dirname(os.path.abspath(__file__)), "pages")
PROGRAM = os.environ.get("CSSVARS", program.PROGRAM)


def need_packages():
    """Leaves a whole module of tests out where the libraries aren't here."""
    if packages.missing():
        raise unittest.SkipTest(f"{' and '.join(packages.missing())} missing")


def need_program():
    """Leaves tests out where the program isn't built."""
    if not os.access(PROGRAM, os.X_OK):
        raise unittest.SkipTest("the program isn't built; 'rt ci' or './run --prove' builds it")


def start_browser():
    """A browser that has started; where none does the tests are left out."""
    from browser import chromium
    if chromium.find() is None:
        raise unittest.SkipTest("Chromium isn't here, so nothing was compared with a browser")
    try:
        return chromium.Browser().__enter__()
    except (chromium.BrowserError, OSError) as error:
        raise unittest.SkipTest(f"Chromium doesn't start here ({error}), so nothing was compared with a browser") from None
