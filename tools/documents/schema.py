"""What docs/document.schema.json finds in a document: a small reader of the words of JSON Schema that it uses.

So that no package is needed. tools/tests compares it with the package jsonschema where that is there.
"""
import difflib
import json
import os
import re
from dataclasses import dataclass
from typing import Optional

PATH = os.path.join(os.path.dirname(os.path.abspath(__file__)), "..", "..", "docs", "document.schema.json")
TYPES = {"object": dict, "array": list, "string": str, "null": type(None)}


@dataclass
class Finding:
    """Something in a document that its schema doesn't allow."""

    place: str  # as elements/3/style; empty for the whole
    text: str
    member: Optional[str] = None  # the member, where one isn't known
    meant: Optional[str] = None  # the known member that is spelt most like it


def load_schema():
    """The schema of this repository."""
    with open(PATH, encoding="utf-8") as file:
        return json.load(file)


def findings(document, schema=None):
    """What the schema doesn't allow in the document, in the document's order, one after the other."""
    schema = load_schema() if schema is None else schema
    return look_at(document, schema, schema, ())


def look_at(value, rule, schema, path):
    """The findings in a value under one rule of the schema; `path` is where the value stands."""
    while "$ref" in rule:
        rule = schema["definitions"][rule["$ref"].rsplit("/", 1)[1]]
    if "type" in rule and not is_of_type(value, rule["type"]):
        yield Finding("/".join(path), f"is no {spoken_type(rule['type'])}")
        return
    yield from look_at_value(value, rule, schema, path)
    if isinstance(value, dict):
        yield from look_at_object(value, rule, schema, path)
    elif isinstance(value, list):
        yield from look_at_array(value, rule, schema, path)


def look_at_value(value, rule, schema, path):
    """The findings by the words that speak of a whole value."""
    place = "/".join(path)
    if "enum" in rule and value not in rule["enum"] or "const" in rule and value != rule["const"]:
        yield Finding(place, f"{value!r} is none of its words")
    if "pattern" in rule and isinstance(value, str) and not re.search(rule["pattern"], value):
        yield Finding(place, f"{value!r} has not its form")
    if is_of_type(value, "integer") and not rule.get("minimum", value) <= value <= rule.get("maximum", value):
        yield Finding(place, f"{value} is out of its range")
    if "anyOf" in rule and all(any(True for _ in look_at(value, one, schema, path)) for one in rule["anyOf"]):
        yield Finding(place, f"{value!r} is none that is known")
    for one in rule.get("allOf", ()):
        if "if" not in one or not any(True for _ in look_at(value, one["if"], schema, path)):
            yield from look_at(value, one.get("then", {}), schema, path)


def look_at_object(value, rule, schema, path):
    """The findings in the members of an object."""
    known = rule.get("properties", {})
    for member in rule.get("required", ()):
        if member not in value:
            yield Finding("/".join(path), f"has no member '{member}'")
    for member, inner in value.items():
        if member in known:
            yield from look_at(inner, known[member], schema, path + (member,))
        elif rule.get("additionalProperties") is False:
            yield unknown_member(member, value, known, path)


def unknown_member(member, value, known, path):
    """The finding of a member that isn't known, with the free one that is spelt most like it."""
    near = difflib.get_close_matches(member.lower(), [name for name in known if name not in value], n=1, cutoff=0.6)
    return Finding("/".join(path), f"has a member '{member}', which nothing reads", member, near[0] if near else None)


def look_at_array(value, rule, schema, path):
    """The findings in the items of an array."""
    if not rule.get("minItems", 0) <= len(value) <= rule.get("maxItems", len(value)):
        yield Finding("/".join(path), f"has {len(value)} items")
        return
    items = rule.get("items", {})
    for index, inner in enumerate(value):
        if isinstance(items, dict):
            item_rule = items
        else:
            item_rule = items[index] if index < len(items) else rule.get("additionalItems", {})
        yield from look_at(inner, item_rule, schema, path + (str(index),))


def is_of_type(value, name):
    """Whether a value has a type of JSON Schema."""
    if name == "integer":
        return isinstance(value, (int, float)) and not isinstance(value, bool) and value == int(value)
    return isinstance(value, TYPES[name])


def spoken_type(name):
    """A type of JSON Schema in words."""
    return {"integer": "whole number", "null": "null"}.get(name, name)
