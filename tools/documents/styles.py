"""The declarations of a style, read roughly: for hints and for people. Nothing that is computed rests on it."""
import re
from dataclasses import dataclass
from typing import Optional

# A comment, a string, an escape, a run of plain characters, or one character.
PIECE = re.compile(r"/\*.*?(?:\*/|\Z)|[^;()\[\]{}/\"'\\]+|\"(?:[^\"\\\n]|\\.)*\"?|'(?:[^'\\\n]|\\.)*'?|\\.|.", re.DOTALL)
PLACE = re.compile(r"/\*\s*(.*?)\s*\*/", re.DOTALL)
HEAD = re.compile(r"((?:[^\\:]|\\.)*)(:?)(.*)", re.DOTALL)
IMPORTANT = re.compile(r"!\s*important\s*\Z", re.IGNORECASE)
ESCAPE = re.compile(r"\\(?:([0-9a-fA-F]{1,6})[ \t\n\r\f]?|(.))", re.DOTALL)


@dataclass
class Item:
    """An item of a style: a declaration, or something else, of which the name is None."""

    name: Optional[str]  # without escapes; ordinary names in lower case
    value: str
    important: bool
    place: str  # the comment before it, as tools/page writes the file and the line


def items(style):
    """The items of a style in order, numbered from 0 as the program numbers them."""
    found, place = [], ""
    for text in cut(style):
        comments = PLACE.findall(text[:len(text) - len(without_comments(text))])
        place = after(place, comments[-1]) if comments else place
        body = without_comments(text)
        if body:
            found.append(item(body, place))
    return found


def after(place, comment):
    """The place that a comment gives behind another place: `:LINE` is a line of the same file."""
    return place.rpartition(":")[0] + comment if re.fullmatch(r":\d+", comment) else comment


def cut(style):
    """The texts between the `;` outside of brackets; an at-rule ends with its block too."""
    text, depth, starts = "", 0, ""
    for piece in PIECE.findall(style):
        if piece == ";" and depth == 0:
            yield text
            text, starts = "", ""
            continue
        text += piece
        if not piece.startswith("/*"):
            starts = starts or piece.strip()
            depth += (piece in "([{") - (piece in ")]}" and depth > 0)
            if piece == "}" and depth == 0 and starts.startswith("@"):
                yield text
                text, starts = "", ""
    yield text


def without_comments(text):
    """A text without whitespace and comments at its front, and without whitespace at its end."""
    return re.sub(r"\A(?:\s|/\*.*?(?:\*/|\Z))+", "", text, flags=re.DOTALL).rstrip()


def item(body, place):
    """The item that a text is."""
    name, colon, value = HEAD.match(body).groups()
    name = unescaped(re.sub(r"/\*.*?\*/", "", name, flags=re.DOTALL).strip())
    if not colon or body.startswith("@") or not name or re.search(r"\s", name) and not name.startswith("--"):
        return Item(None, body, False, place)
    value = re.sub(r"/\*.*?(?:\*/|\Z)", "/**/", value, flags=re.DOTALL)
    plain = IMPORTANT.sub("", value)
    return Item(name if name.startswith("--") else name.lower(), " ".join(plain.split()), plain != value, place)


def winners(style, ignored=()):
    """The winning declarations by name, in the order of their first places; `ignored` are numbers of items that count for nothing."""
    found = {}
    for number, one in enumerate(items(style)):
        if one.name is not None and number not in ignored:
            before = found.get(one.name)
            found[one.name] = before if before is not None and before.important and not one.important else one
    return found


def unescaped(name):
    """The name that an identifier writes."""
    return ESCAPE.sub(lambda match: chr(int(match.group(1), 16)) if match.group(1) else match.group(2), name) if "\\" in name else name
