"""Shorthands and logical names that stand for ordinary properties which the program computes.

They are expanded where they hold no var(), else once that is substituted; the lines are those of horizontal text from left to right.
"""
import tinycss2
import tinycss2.color3

from documents.properties import NAMES, is_custom

WITH_VAR = "with var()"  # why nothing can be told yet of what a shorthand gives
WIDE = frozenset(("initial", "inherit", "unset", "revert", "revert-layer"))
SIDES = ("top", "right", "bottom", "left")


def sides(prefix):
    """The four longhands of a box."""
    return tuple(f"{prefix}-{side}" if prefix else side for side in SIDES)


BOXES = {"margin": sides("margin"), "padding": sides("padding"), "inset": sides("")}
PAIRS = {
    "gap": ("row-gap", "column-gap"), "grid-gap": ("row-gap", "column-gap"),
    "margin-block": ("margin-top", "margin-bottom"), "margin-inline": ("margin-left", "margin-right"),
    "padding-block": ("padding-top", "padding-bottom"), "padding-inline": ("padding-left", "padding-right"),
    "inset-block": ("top", "bottom"), "inset-inline": ("left", "right"),
}
RENAMED = {
    "grid-row-gap": "row-gap", "grid-column-gap": "column-gap",
    "inline-size": "width", "block-size": "height", "min-inline-size": "min-width", "min-block-size": "min-height",
    "max-inline-size": "max-width", "max-block-size": "max-height",
    **{f"{box}{logical}": f"{physical}" if box == "inset" else f"{box}-{physical}"
       for box in ("margin", "padding", "inset")
       for logical, physical in (("-block-start", "top"), ("-block-end", "bottom"), ("-inline-start", "left"), ("-inline-end", "right"))},
}
OTHERS = {"background": ("background-color",), "flex": ("flex-grow", "flex-shrink"), "font": ("font-size", "line-height"), "all": NAMES}


def expand(node):
    """The longhands that a declaration gives, as pairs of a name and a value, and what is left out of it.

    None where it gives none that the program knows. A value is None where it can't be told.
    """
    name = node.name if node.name.startswith("--") else node.lower_name
    if is_custom(name) or name in NAMES:
        return [(name, tinycss2.serialize(node.value).strip())], None
    if name in RENAMED:
        return [(RENAMED[name], tinycss2.serialize(node.value).strip())], None
    longhands = BOXES.get(name) or PAIRS.get(name) or OTHERS.get(name)
    if longhands is None:
        return None, None
    parts = parted(node.value)
    if len(parts) == 1 and parts[0].lower() in WIDE:
        return [(longhand, parts[0]) for longhand in longhands], None
    if holds_var(node.value):
        return [(longhand, None) for longhand in longhands], WITH_VAR
    if not all(may_stand(name, token) for token in node.value):
        return [], f"shorthand {name} with a value that it doesn't take"
    values = values_of(name, parts, node.value)
    if values is None:
        return [(longhand, None) for longhand in longhands], f"shorthand {name} of a form that isn't read"
    return list(zip(longhands, values)), None


def may_stand(name, token):
    """Whether a token may stand in a box or pair: else all of it counts for nothing, and not one longhand alone."""
    if name not in BOXES and name not in PAIRS or token.type in ("whitespace", "comment", "function"):
        return True
    if token.type in ("dimension", "percentage", "number"):
        signed = name.startswith(("margin", "inset"))
        return (signed or token.value >= 0) and (token.type != "number" or token.value == 0)
    return token.type == "ident" and token.lower_value in ("auto", "normal", *WIDE)


def values_of(name, parts, tokens):
    """The values of a shorthand's longhands, or None."""
    if name in BOXES:
        return box_values(parts)
    if name in PAIRS:
        return (parts * 2)[:2] if len(parts) in (1, 2) else None
    if name == "background":
        return [background_color(tokens)]
    if name == "flex":
        return flex_values(parts)
    if name == "font":
        return font_values(parts)
    return None


def parted(tokens):
    """The texts between the whitespace at the top level; `/` stands alone."""
    parts = [""]
    for token in tokens:
        if token.type == "whitespace":
            parts.append("")
        elif token == "/":
            parts += ["/", ""]
        elif token.type != "comment":
            parts[-1] += token.serialize()
    return [part for part in parts if part]


def holds_var(tokens):
    """Whether var() stands in the tokens, at any depth."""
    return any(token.type == "function" and token.lower_name == "var"
               or holds_var(getattr(token, "arguments", None) or getattr(token, "content", None) or ())
               for token in tokens if token.type not in ("error",))


def box_values(parts):
    """Top, right, bottom and left of one to four values."""
    if not 1 <= len(parts) <= 4:
        return None
    top, right, bottom, left = (parts + [None] * 3)[:4]
    right = top if right is None else right
    return [top, right, top if bottom is None else bottom, right if left is None else left]


def background_color(tokens):
    """The colour of a background: the one part that is a colour."""
    for token in tokens:
        if tinycss2.color3.parse_color(token) is not None or token.type == "function" and token.lower_name in COLOR_FUNCTIONS:
            return token.serialize()
    return "transparent"


COLOR_FUNCTIONS = frozenset(("rgb", "rgba", "hsl", "hsla", "hwb", "lab", "lch", "oklab", "oklch", "color", "color-mix", "light-dark"))


def flex_values(parts):
    """Grow and shrink."""
    if [part.lower() for part in parts] == ["none"]:
        return ["0", "0"]
    numbers = [part for part in parts if is_number(part)]
    if len(numbers) > 2 or len(parts) - len(numbers) > 1:
        return None
    return numbers + ["1"] * (2 - len(numbers))


def is_number(text):
    """Whether a text is a plain number."""
    try:
        float(text)
    except ValueError:
        return False
    return True


def font_values(parts):
    """Size and line height: the first length or percentage, and what stands behind its `/`."""
    for place, part in enumerate(parts[:-1]):
        token = tinycss2.parse_one_component_value(part)
        if token.type in ("dimension", "percentage") or token.type == "function" or part.lower() == "medium":
            line_height = parts[place + 2] if parts[place + 1] == "/" and place + 2 < len(parts) else "normal"
            return [part, line_height]
    return None
