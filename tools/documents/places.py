"""Where the text of a document stops being JSON, by line and column."""
import json
import re

DEEPEST = 127
BRACKETS = re.compile(r'"(?:[^"\\]|\\.)*"?|[\[\]{}]', re.DOTALL)


class NotJson(Exception):
    """A text that isn't JSON as the program reads it, with its place."""

    def __init__(self, why, text, place):
        line = text.count("\n", 0, place) + 1
        column = place - (text.rfind("\n", 0, place) + 1) + 1
        super().__init__(f"line {line}, column {column}: {why}")


def read_json(data):
    """The value that bytes hold; `NotJson` where they hold none."""
    try:
        text = data.decode("utf-8")
    except UnicodeDecodeError as error:
        raise NotJson("not UTF-8", data[:error.start].decode("utf-8"), len(data[:error.start].decode("utf-8"))) from None
    check_depth(text)
    try:
        return json.loads(text, parse_constant=refuse_constant)
    except json.JSONDecodeError as error:
        raise NotJson(error.msg, text, error.pos) from None
    except BadConstant as error:
        raise NotJson(f"{error} is no JSON", text, text.index(str(error))) from None


class BadConstant(ValueError):
    """One of the words that Python takes for a number and JSON doesn't."""


def refuse_constant(word):
    """Refuses NaN and the infinities."""
    raise BadConstant(word)


def check_depth(text):
    """Refuses a text whose brackets are nested deeper than the program reads."""
    depth = 0
    for piece in BRACKETS.finditer(text):
        if piece.group() in ("[", "{"):
            depth += 1
            if depth > DEEPEST:
                raise NotJson(f"nested deeper than {DEEPEST}", text, piece.start())
        elif piece.group() in ("]", "}"):
            depth -= 1
