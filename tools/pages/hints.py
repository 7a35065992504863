"""Presentational hints (HTML, Rendering): attributes that stand for declarations, weaker than every sheet of the author."""
import re

SIZED = ("img", "iframe", "embed", "object", "video", "table", "td", "th", "col", "hr")
COLORED = ("body", "table", "thead", "tbody", "tfoot", "tr", "td", "th")


def hints(element):
    """The declarations that an element's attributes stand for, as pairs of a name and a value."""
    if element.is_html(*SIZED):
        yield from sizes(element, ("width", "height"))
    if element.wrapper.local_name == "svg" and not element.is_html("svg"):
        yield from sizes(element, ("width", "height"))
    if element.is_html(*COLORED) and element.get("bgcolor"):
        yield "background-color", element.get("bgcolor")
    if element.is_html("body") and element.get("text"):
        yield "color", element.get("text")
    if element.is_html("font") and element.get("color"):
        yield "color", element.get("color")


def sizes(element, names):
    """Sizes in px or percent."""
    for name in names:
        match = re.match(r"\s*(\d+(?:\.\d+)?)(%?)", element.get(name) or "")
        if match and float(match.group(1)) > 0:
            yield name, match.group(1) + (match.group(2) or "px")
