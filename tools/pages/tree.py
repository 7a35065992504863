"""The elements of a page in tree order, and how people name them."""
import html.parser
import sys
from dataclasses import dataclass, field
from typing import Optional

import cssselect2
import html5lib

HTML = "{http://www.w3.org/1999/xhtml}"
DEEPEST = 20_000  # the deepest tree for which libraries that recurse are trusted
MOST_CLASSES = 2


@dataclass
class Element:
    """One element: what selectors match, its parent's index, its name for people, its line in the file."""

    wrapper: cssselect2.ElementWrapper
    parent: Optional[int]
    label: str
    line: int

    def is_html(self, *names):
        """Whether it is an HTML element of one of these names."""
        return self.wrapper.etree_element.tag in [HTML + name for name in names]

    def get(self, attribute, default=None):
        """The value of an attribute."""
        return self.wrapper.etree_element.get(attribute, default)


@dataclass
class Start:
    """Where a start tag stands in the file, and on which line its content begins."""

    line: int
    content_line: int


@dataclass
class Places(html.parser.HTMLParser):
    """The start tags of a text by name, in order: html5lib tells no places."""

    starts: dict = field(default_factory=dict)

    def __post_init__(self):
        super().__init__(convert_charrefs=True)

    def handle_starttag(self, tag, attrs):
        """Notes a start tag."""
        line = self.getpos()[0]
        self.starts.setdefault(tag, []).append(Start(line, line + self.get_starttag_text().count("\n")))


def read_elements(data, left_out, file):
    """The elements of an HTML text in tree order."""
    sys.setrecursionlimit(max(sys.getrecursionlimit(), DEEPEST))
    parser = html5lib.HTMLParser(tree=html5lib.getTreeBuilder("etree"))
    root = parser.parse(data, scripting=True)
    for template in root.iter(HTML + "template"):
        empty_template(template, left_out, file)
    places = places_of(data)
    counts, indexes, elements = {}, {}, []
    for wrapper in cssselect2.ElementWrapper.from_html_root(root).iter_subtree():
        name = wrapper.local_name.lower()
        counts[name] = counts.get(name, -1) + 1
        parent = None if wrapper.parent is None else indexes[id(wrapper.parent.etree_element)]
        indexes[id(wrapper.etree_element)] = len(elements)
        start = place_of(places, name, counts[name])
        elements.append(Element(wrapper, parent, label(wrapper), start.line))
    return elements, places


def empty_template(template, left_out, file):
    """Takes out the content of a template, which is no part of the page's tree."""
    if len(template) or template.text:
        left_out.add(file, 1, "the content of template elements, which is no part of the tree")
    for child in list(template):
        template.remove(child)
    template.text = None


def places_of(data):
    """The places of the start tags in a text."""
    places = Places()
    places.feed(data.decode("utf-8", "replace"))
    return places.starts


def place_of(places, name, number):
    """The place of the start tag of this number among those of its name; line 1 where it has none."""
    starts = places.get(name, [])
    return starts[number] if number < len(starts) else Start(1, 1)


def label(wrapper):
    """How people name an element: its tag with its id or classes, behind that of its parent."""
    own = compound(wrapper)
    if wrapper.parent is None or wrapper.id:
        return own
    return f"{compound(wrapper.parent)} > {own}"


def compound(wrapper):
    """An element's tag with its id, or else with its first classes."""
    if wrapper.id:
        return f"{wrapper.local_name}#{wrapper.id}"
    classes = (wrapper.etree_element.get("class") or "").split()
    return wrapper.local_name + "".join("." + name for name in classes[:MOST_CLASSES])
