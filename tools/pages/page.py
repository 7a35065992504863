"""A page as a document."""
import json
from dataclasses import dataclass

from pages import media
from pages.cascade import Cascade, style_text, untold
from pages.layers import Layers
from pages.left_out import LeftOut
from pages.rules import Reader
from pages.sheets import Sheets
from pages.substituted import with_shorthands
from pages.tree import read_elements

MOST_BYTES = 16_777_216


def no_report(document):
    """What gives no report."""
    return None


@dataclass
class Page:
    """A page that was read: its document, and what is left out."""

    document: dict
    left_out: LeftOut

    def text(self):
        """The document as JSON, an element a line."""
        return text_of(self.document)


def read_page(path, width=1280, height=720, with_places=True, report_of=no_report):
    """Reads the page in a file. With `with_places` styles say in comments where their declarations come from.

    `report_of` gives the program's report of a document, for shorthands with var(), or None where there is no program.
    """
    left_out, screen = LeftOut(), media.Screen(width, height)
    with open(path, "rb") as file:
        data = file.read()
    elements, places = read_elements(data, left_out, path)
    note_scripts(elements, left_out, path)
    sheets = Sheets(path, left_out, screen)
    reader = Reader(screen, Layers(), left_out, sheets.load)
    sheets.read_all(elements, places, reader)
    cascade = Cascade(reader)
    page = Page({"page": path, "viewport": {"width": width, "height": height}}, left_out)
    if reader.registrations:
        page.document["sheet"] = "\n".join(reader.registrations)
    page.document["elements"] = [{"parent": element.parent, "label": element.label} for element in elements]
    applied = with_shorthands([cascade.applied(element, path) for element in elements], page.document, report_of)
    for item, its in zip(page.document["elements"], applied):
        style = style_text(its, with_places)
        if style:
            item["style"] = style
    note_untold(applied, left_out, path)
    return page


def note_untold(applied, left_out, path):
    """Notes the shorthands with var() that win and whose values can't be told."""
    found = {(one.file or path, one.declared.line, one.declared.shorthand.partition(":")[0]): None for its in applied for one in untold(its)}
    for file, line, name in found:
        if name:
            left_out.add(file, line, f"shorthand {name} with var()")


def note_scripts(elements, left_out, path):
    """Says which elements change a page in ways that aren't followed."""
    for element in elements:
        if element.is_html("script"):
            left_out.add(path, element.line, "what scripts do")
        elif element.is_html("base"):
            left_out.add(path, element.line, "the base element, by which links would be read")


def text_of(document):
    """A document as JSON, an element a line."""
    head = {name: value for name, value in document.items() if name != "elements"}
    lines = ",\n".join(json.dumps(element, ensure_ascii=False) for element in document["elements"])
    return json.dumps(head, ensure_ascii=False)[:-1] + ',\n"elements": [\n' + lines + "\n]}\n"
