"""The declarations that apply to an element, in an order in which the last one wins (Cascading and Inheritance 5)."""
from dataclasses import dataclass
from functools import lru_cache
from typing import Tuple

import cssselect2
import tinycss2
from tinycss2.serializer import serialize_identifier

from pages.hints import hints
from pages.rules import Declared, block_items

HINTS = (-1,)  # the layer of presentational hints, below every other
ROLLBACKS = ("revert", "revert-layer")


@dataclass(frozen=True)
class Applied:
    """A declaration that applies to an element, and where it stands in the cascade."""

    declared: Declared
    author: bool
    attached: bool  # by the element's own style attribute
    layer: Tuple
    file: str  # None where it is a style attribute

    def level(self):
        """What sorts the layers of the author's normal declarations; a style attribute is one of its own."""
        return (self.attached, self.layer)


class Cascade:
    """The rules of all sheets of a page, ready to be asked by element."""

    def __init__(self, reader):
        self.reader = reader
        self.matcher = cssselect2.Matcher()
        for order, rule in enumerate(reader.rules):
            for selector in rule.selectors:
                self.matcher.add_selector(selector, order)
        self.keys = [reader.layers.key(rule.scope.layer) for rule in reader.rules]
        self.known = {}

    def applied(self, element, file):
        """What applies to an element: normal declarations and then important ones, each the weakest first."""
        weights = {}
        for specificity, _, pseudo, order in self.matcher.match(element.wrapper):
            if pseudo is None:
                weights[order] = max(specificity, weights.get(order, (0, 0, 0)))
        matched = tuple(sorted((specificity, order) for order, specificity in weights.items()))
        attached, hinted = self.attached(element, file), [Declared(name, value, False, element.line) for name, value in hints(element)]
        if attached or hinted:
            return self.sorted(matched, attached, hinted)
        if matched not in self.known:
            self.known[matched] = self.sorted(matched)
        return self.known[matched]

    def attached(self, element, file):
        """The declarations of an element's style attribute."""
        text = element.get("style")
        if not text:
            return []
        found = []
        for item in block_items(tinycss2.parse_component_value_list(text)):
            if item.type == "declaration":
                found += self.reader.declared(item, AttributeScope(file, element.line))
            else:
                self.reader.left_out.add(file, element.line, "what isn't a declaration in a style attribute")
        return found

    def sorted(self, matched, attached=(), hinted=()):
        """Rules (with their specificity), the declarations of a style attribute, and hints, sorted by the cascade."""
        entries = [(declared, True, False, HINTS, (0, 0, 0), -2, None) for declared in hinted]
        for specificity, order in matched:
            scope, key = self.reader.rules[order].scope, self.keys[order]
            for declared in self.reader.rules[order].declarations:
                entries.append((declared, scope.author, False, key, specificity, order, scope.file))
        for declared in attached:
            entries.append((declared, True, True, (), (0, 0, 0), -1, None))
        entries.sort(key=weight)
        applied = [Applied(declared, author, own, layer, file) for declared, author, own, layer, _, _, file in entries]
        return rolled_back(applied)


@dataclass(frozen=True)
class AttributeScope:
    """The scope of a style attribute."""

    file: str
    line: int
    author: bool = True

    def line_of(self, node):
        """The line of the element."""
        return self.line


def weight(entry):
    """What sorts the entries of a cascade, weakest first; sorting keeps the order of declarations of one rule."""
    declared, author, attached, layer, specificity, order, _ = entry
    if declared.important:
        return (1, not author, attached, tuple(-number for number in layer), specificity, order)
    return (0, author, attached, layer, specificity, order)


def winner_of(applied, name):
    """The last important declaration of a name, else the last one; None where there is none."""
    named = [one for one in applied if one.declared.name == name]
    important = [one for one in named if one.declared.important]
    return (important or named or [None])[-1]


def is_winner(one, applied):
    """Whether one of the declarations that apply wins."""
    return winner_of(applied, one.declared.name) is one


def rolled_back(applied):
    """Takes out what `revert` and `revert-layer` roll back, where they win."""
    names = {one.declared.name for one in applied if is_rollback(one)}
    for name in names:
        winner = winner_of(applied, name)
        while winner is not None and winner.author and is_rollback(winner):
            applied = [one for one in applied if one.declared.name != name or stays_below(one, winner)]
            winner = winner_of(applied, name)
    return applied


def stays_below(applied, winner):
    """Whether a declaration stands below all that a rollback takes out: its origin or its layer, and what is between the
    normal and the important declarations of that. What is above it can't be, for it wins.
    """
    if winner.declared.value.lower() == "revert" or not applied.author:
        return not applied.author
    return not applied.declared.important and applied.level() < winner.level()


def is_rollback(applied):
    """Whether a declaration rolls back."""
    value = applied.declared.value
    return value is not None and value.lower() in ROLLBACKS


def style_text(applied, with_places=True):
    """The declarations as the text of a style, behind comments with their places: `/* FILE:LINE */`, or `/* :LINE */` in the file before."""
    parts, place = [], (None, None)
    for one in applied:
        declared = one.declared
        if declared.value is None:
            continue
        if with_places and place_of(one) != place:
            parts.append(place_comment(place_of(one), place[0]))
            place = place_of(one)
        important = " !important" if declared.important else ""
        parts.append(f"{written(declared.name)}: {declared.value}{important};")
    return " ".join(parts)


@lru_cache(maxsize=None)
def written(name):
    """A name as an identifier."""
    return serialize_identifier(name)


def place_of(applied):
    """Where a declaration comes from: a file and a line, or a word without one."""
    if not applied.author:
        return "browser", None
    return (applied.file, applied.declared.line) if applied.file else ("attribute", None)


def place_comment(place, file_before):
    """The comment for a place."""
    file, line = place
    if line is None:
        return f"/* {file} */"
    return f"/* :{line} */" if file == file_before else f"/* {file}:{line} */"


def untold(applied):
    """The declarations that win and whose value can't be told: those of a shorthand that isn't expanded."""
    return [one for one in applied if one.declared.value is None and is_winner(one, applied)]
