"""The ordinary properties that the program computes, by name, and which of them inherit."""
from documents.schema import load_schema

INHERITED = frozenset(("font-size", "color", "line-height", "letter-spacing", "text-indent", "visibility", "orphans"))
NAMES = tuple(load_schema()["definitions"]["name"]["anyOf"][1]["enum"])


def is_custom(name):
    """Whether a name is that of a custom property."""
    return name.startswith("--") and len(name) > 2


def inherits(name):
    """Whether an ordinary property inherits."""
    return name in INHERITED
