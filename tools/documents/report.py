"""The lines of a report, read and named."""
import re
from dataclasses import dataclass
from typing import Optional

NAME = r"(?:\\[0-9a-f]{1,6} ?|\\[\s\S]|[^\\ ])+"
LINE = re.compile(rf"(\d+) ({NAME}) (?:(invalid)|(=)(?: (.*))?|! (\w+))", re.DOTALL)
NOTE = re.compile(r"# element (\d+) declaration (\d+): (.*)")
OF_ELEMENT = b"# element "


@dataclass
class Line:
    """A line of a report that tells of a name on an element: a value, invalid, or the cause of a fault."""

    element: int
    name: str  # as it is written, an identifier
    value: Optional[str] = None  # None for the guaranteed-invalid value, and where a cause is told
    cause: Optional[str] = None


@dataclass
class Note:
    """A line of a report on a declaration that is ignored."""

    element: int
    declaration: int
    why: str


def read_report(text):
    """The lines of a report one after the other, as `Line` and `Note`; notes on the sheet are passed over."""
    for line in text.split("\n"):
        head, equals, value = line.partition(" = ")
        if equals and "\\" not in head:  # as nearly all lines are
            element, _, name = head.partition(" ")
            yield Line(int(element), name, value)
        else:
            found = read_line(line)
            if found is not None:
                yield found


def read_line(line):
    """A line of any form; None where it is neither `Line` nor `Note`."""
    if line.endswith(" invalid") and line.count(" ") == 2:
        element, name, _ = line.split(" ")
        return Line(int(element), name)
    note = NOTE.fullmatch(line)
    if note:
        return Note(int(note.group(1)), int(note.group(2)), note.group(3))
    found = LINE.fullmatch(line)
    if found is None:
        return None
    element, name, _, equals, value, cause = found.groups()
    return Line(int(element), name, (value or "") if equals else None, cause)


def with_labels(report, labels):
    """A report (bytes) in which each element is named by its index and its label, as `#3 div.card > p`."""
    named = [f"#{index} {label}".rstrip().encode("utf-8") for index, label in enumerate(labels)]
    return b"\n".join(named_line(line, named) for line in report.split(b"\n"))


def named_line(line, named):
    """One line, with the name of its element."""
    head = OF_ELEMENT if line.startswith(OF_ELEMENT) else b""
    index, space, rest = line[len(head):].partition(b" ")
    if not space or not index.isdigit():
        return line
    return head + named[int(index)] + space + rest
