"""Compares the report of a page with what a browser computes on it."""
import json
import subprocess
from collections import Counter
from dataclasses import dataclass, field

import tinycss2

from browser.same import same
from browser.values import read_values
from documents.properties import NAMES, is_custom
from documents.report import Note, read_report
from documents.styles import items, unescaped
from pages.page import read_page
from tests.known import KNOWN
from tests.start import PROGRAM


@dataclass
class Difference:
    """A name on an element of which the program and the browser say different things."""

    element: int
    label: str
    name: str
    ours: str
    browsers: str
    reason: str  # empty where none is known


@dataclass
class Agreement:
    """What came of one page."""

    agree: int = 0
    differences: list = field(default_factory=list)

    def unknown(self):
        """The differences that no reason is known for."""
        return [one for one in self.differences if not one.reason]

    def spoken(self):
        """The whole in a line, and a line for each reason."""
        counts = Counter(one.reason for one in self.differences if one.reason)
        yield f"{self.agree} values agree, {sum(counts.values())} differ for known reasons, {len(self.unknown())} differ"
        for reason, count in counts.most_common():
            yield f"    {count:5} {reason}"


@dataclass
class Case:
    """All that tells why a name differs on an element."""

    ours: str
    browsers: str
    name: str
    element: int
    parent: int
    computed: list  # by element, what the browser computes
    ignored: set  # pairs of an element and a name of which a declaration was ignored
    known: dict  # pairs of an element and a name that differ for a known reason
    authored: set  # the names that the author's sheets declare on the element

    def here(self):
        """What the browser computes on the element."""
        return self.computed[self.element]

    def above(self):
        """What the browser computes on the parent, None on the root."""
        return None if self.parent is None else self.computed[self.parent]


def compute(document):
    """The status and the report of a document."""
    ended = subprocess.run([PROGRAM, "compute"], input=json.dumps(document).encode(), stdout=subprocess.PIPE, stderr=subprocess.DEVNULL)
    return ended.returncode, ended.stdout.decode("utf-8")


def page_and_report(path, width, height):
    """A page and its report of all names."""
    page = read_page(path, width, height, report_of=lambda document: compute(document)[1])
    status, report = compute(with_all_names(page.document, NAMES))
    if status != 0:
        raise AssertionError(f"{path}: the program ends with {status}")
    return page, report


def with_all_names(document, ordinary):
    """A document that shows the custom names of its styles and its sheet, and these ordinary ones."""
    names = {}
    for text in [document.get("sheet", "")] + [element.get("style", "") for element in document["elements"]]:
        for token in tinycss2.parse_component_value_list(text):
            if token.type == "ident" and is_custom(token.value):
                names[token.value] = None
    return {**document, "show": list(names) + list(ordinary)}


def compare(browser, path, width=1280, height=720):
    """Opens a page in the browser, and compares each value with the report."""
    page, report = page_and_report(path, width, height)
    values, ignored = {}, set()
    for line in read_report(report):
        if isinstance(line, Note):
            ignored.add((line.element, declared_name(page.document, line)))
        elif line.cause is None:
            values[line.element, unescaped(line.name)] = "" if line.value is None else line.value
    names = list(dict.fromkeys(name for _, name in values))
    browser.resize(width, height)
    browser.open(path)
    computed = read_values(browser, [name for name in names if is_custom(name)], [name for name in names if not is_custom(name)])
    check_elements(page.document["elements"], computed)
    found, known = Agreement(), {}
    for index, element in enumerate(page.document["elements"]):
        authored = authored_names(element)
        for name in sorted(names, key=lambda name: name != "font-size"):  # first that on which others rest
            case = Case(values[index, name], computed[index].values[name], name, index, element["parent"], computed, ignored, known, authored)
            note(found, case, element["label"])
    return found


def note(found, case, label):
    """Counts a value that agrees, or notes a difference with its reason."""
    if same(resolved(case), case.browsers):
        found.agree += 1
        return
    reason = next((reason for reason, holds in KNOWN if holds(case)), "")
    if reason:
        case.known[case.element, case.name] = reason
    found.differences.append(Difference(case.element, label, case.name, case.ours, case.browsers, reason))


def resolved(case):
    """Our computed value as getComputedStyle gives it: its resolved value (CSSOM, Resolved Values)."""
    if case.ours == "currentcolor":
        return case.here().facts["color"]
    if case.name == "line-height" and case.ours.replace(".", "").isdigit():
        return f"{float(case.ours) * float(case.here().values['font-size'][:-2])}px"
    return case.ours


def check_elements(elements, computed):
    """Checks that both sides see the same elements."""
    ours = [element["label"].split(" > ")[-1] for element in elements]
    theirs = [one.tag for one in computed]
    if len(ours) != len(theirs) or not all(label.startswith(tag) for label, tag in zip(ours, theirs)):
        raise AssertionError(f"the trees differ: {len(ours)} elements here, {len(theirs)} in the browser")


def authored_names(element):
    """The names that the author's sheets declare: what doesn't come from the browser's own."""
    return {item.name for item in items(element.get("style", "")) if item.place != "browser"}


def declared_name(document, ignored):
    """The name of an ignored declaration."""
    return items(document["elements"][ignored.element].get("style", ""))[ignored.declaration].name
