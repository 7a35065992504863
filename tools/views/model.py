"""What the view shows, made of a document and its report: each element keeps only what differs from its parent."""
import re
from array import array

from documents.properties import INHERITED
from documents.report import Note, read_report
from documents.styles import unescaped, winners

INVALID, ABSENT = -1, -2


class Model:
    """The names, texts and elements of a view, each text once."""

    def __init__(self, document, report):
        self.names, self.name_numbers = [], {}
        self.texts, self.text_numbers = [], {}
        self.elements = [{"parent": element["parent"], "label": element.get("label", ""), "set": {}, "declared": {}, "causes": {}, "notes": []}
                         for element in document["elements"]]
        self.read(document, report)
        self.by_plain_name = {plain: number for number, plain in enumerate(self.plain_names())}
        for index, element in enumerate(document["elements"]):
            self.declare(index, element.get("style", ""))
        self.head = {
            "page": document.get("page", ""), "viewport": document.get("viewport", {"width": 1280, "height": 720}),
            "inherited": [name in INHERITED or name.startswith("--") and self.inherits(name, document.get("sheet", "")) for name in self.plain_names()],
        }

    def read(self, document, report):
        """Takes the lines of the report; a value stands only where it differs from the parent's."""
        values = [array("l") for _ in document["elements"]]  # the numbers of the texts, by the numbers of their names
        for line in read_report(report):
            if isinstance(line, Note):
                self.elements[line.element]["notes"].append((line.declaration, line.why))
            elif line.cause is not None:
                self.elements[line.element]["causes"][self.name_number(line.name)] = line.cause
            else:
                text, name = INVALID if line.value is None else self.text_number(line.value), self.name_number(line.name)
                own = values[line.element]
                if name >= len(own):
                    own.extend([ABSENT] * (name + 1 - len(own)))
                own[name] = text
        for element, own in zip(self.elements, values):
            above = values[element["parent"]] if element["parent"] is not None else ()
            element["set"] = {name: text for name, text in enumerate(own) if text != (above[name] if name < len(above) else ABSENT)}

    def declare(self, index, style):
        """Takes the winning declarations of an element, as pairs of their text and place."""
        element = self.elements[index]
        ignored = {number for number, _ in element["notes"]}
        for name, item in winners(style, ignored).items():
            if name in self.by_plain_name:
                text = item.value + (" !important" if item.important else "")
                element["declared"][self.by_plain_name[name]] = [self.text_number(text), self.text_number(item.place)]

    def inherits(self, name, sheet):
        """Whether a custom name inherits: it does, unless its last registration says otherwise."""
        rules = re.findall(rf"@property\s+{re.escape(name)}\s*\{{(.*?)\}}", sheet, re.DOTALL | re.IGNORECASE)
        return not rules or re.search(r"inherits\s*:\s*false", rules[-1], re.IGNORECASE) is None

    def plain_names(self):
        """The names without escapes."""
        return [unescaped(name) for name in self.names]

    def name_number(self, name):
        """The number of a name."""
        return number_of(name, self.names, self.name_numbers)

    def text_number(self, text):
        """The number of a text."""
        return number_of(text, self.texts, self.text_numbers)

    def data(self):
        """The whole as plain data for the script of the view."""
        elements = [[element["parent"], element["label"], flat(element["set"]),
                     [[name, *pair] for name, pair in element["declared"].items()], flat(element["causes"]), element["notes"]]
                    for element in self.elements]
        return {**self.head, "names": self.names, "texts": self.texts, "elements": elements}


def number_of(text, texts, numbers):
    """The number of a text in a list, which it joins where it is new."""
    if text not in numbers:
        numbers[text] = len(texts)
        texts.append(text)
    return numbers[text]


def flat(pairs):
    """The keys and values of a mapping in one list."""
    return [part for pair in pairs.items() for part in pair]
