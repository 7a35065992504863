"""Rows of the ordinary properties: what is computed of values, which stand there as they are or come by a reference."""

import json

# Each property, whether it is inherited, and its initial value.
PROPERTIES = [
    ("font-size", True, "16px"), ("color", True, "rgb(0, 0, 0)"), ("line-height", True, "normal"), ("letter-spacing", True, "normal"),
    ("text-indent", True, "0px"), ("visibility", True, "visible"), ("orphans", True, "2"), ("display", False, "inline"),
    ("width", False, "auto"), ("height", False, "auto"), ("min-width", False, "auto"), ("min-height", False, "auto"),
    ("max-width", False, "none"), ("max-height", False, "none"), ("margin-top", False, "0px"), ("margin-right", False, "0px"),
    ("margin-bottom", False, "0px"), ("margin-left", False, "0px"), ("padding-top", False, "0px"), ("padding-right", False, "0px"),
    ("padding-bottom", False, "0px"), ("padding-left", False, "0px"), ("top", False, "auto"), ("right", False, "auto"),
    ("bottom", False, "auto"), ("left", False, "auto"), ("row-gap", False, "normal"), ("column-gap", False, "normal"),
    ("opacity", False, "1"), ("z-index", False, "auto"), ("order", False, "0"), ("flex-grow", False, "0"), ("flex-shrink", False, "1"),
    ("background-color", False, "rgba(0, 0, 0, 0)"), ("outline-offset", False, "0px")]

# What the parent of each element declares, as it is computed there.
PARENT = {"font-size": "20px", "color": "rgb(255, 0, 0)"}

NONE = None  # no value of the property

# Values and what is computed of them below PARENT, on an element that declares nothing else.
COMPUTED = {
    "font-size": [("MEDIUM", "16px"), ("2em", "40px"), ("2ex", "20px"), ("50%", "10px"), ("calc(1px + 50%)", "11px"), ("0", "0px"),
                  ("calc(-1px)", "0px"), ("2rem", "40px"), ("1vw", "12.8px"), ("-1px", NONE), ("large", NONE), ("1", NONE)],
    "color": [("Red", "rgb(255, 0, 0)"), ("currentColor", "rgb(255, 0, 0)"), ("#00000080", "rgba(0, 0, 0, calc(128 / 255))"),
              ("1px", NONE)],
    "line-height": [("Normal", "normal"), ("1.5", "1.5"), ("0", "0"), ("150%", "30px"), ("2em", "40px"), ("calc(-1)", "0"),
                    ("calc(-1px)", "0px"), ("calc(50% + 1px)", "11px"), ("-1", NONE), ("-1px", NONE), ("auto", NONE)],
    "letter-spacing": [("Normal", "normal"), ("-1px", "-1px"), ("0", "0px"), ("1em", "20px"), ("5%", NONE)],
    "text-indent": [("-5%", "-5%"), ("calc(1px + 5%)", "calc(5% + 1px)"), ("auto", NONE)],
    "visibility": [("Collapse", "collapse"), ("hidden", "hidden"), ("none", NONE)],
    "orphans": [("1", "1"), ("calc(0.4)", "1"), ("calc(-3)", "1"), ("calc(2.5)", "3"), ("0", NONE), ("-1", NONE), ("1.0", NONE)],
    "display": [("Inline-Block", "inline-block"), ("block", "block"), ("flex", "flex"), ("grid", "grid"), ("contents", "contents"),
                ("none", "none"), ("table", NONE), ("inline block", NONE)],
    "width": [("AUTO", "auto"), ("calc(-5px)", "0px"), ("calc(100% - 5px)", "calc(100% - 5px)"), ("1cm", "calc(4800px / 127)"),
              ("-5px", NONE), ("none", NONE), ("5", NONE)],
    "height": [("min(5%, 8%)", "min(5%, 8%)"), ("-1%", NONE)],
    "min-width": [("auto", "auto"), ("max(1px, 2px)", "2px"), ("none", NONE)],
    "min-height": [("5%", "5%"), ("-5%", NONE)],
    "max-width": [("None", "none"), ("auto", NONE)],
    "max-height": [("1in", "96px"), ("auto", NONE)],
    "margin-top": [("Auto", "auto"), ("none", NONE)],
    "margin-right": [("-1px", "-1px"), ("normal", NONE)],
    "margin-bottom": [("calc(1em + 1px)", "21px"), ("1px 2px", NONE)],
    "margin-left": [("-3%", "-3%"), ("3", NONE)],
    "padding-top": [("3%", "3%"), ("-3%", NONE)],
    "padding-right": [("calc(5% - 9px)", "calc(5% - 9px)"), ("calc(5%-9px)", NONE)],
    "padding-bottom": [("clamp(1px, 5px, 3px)", "3px"), ("auto", NONE)],
    "padding-left": [("0", "0px"), ("-1px", NONE)],
    "top": [("Auto", "auto"), ("none", NONE)],
    "right": [("1px", "1px"), ("normal", NONE)],
    "bottom": [("calc(0% + 3px)", "calc(0% + 3px)"), ("1s", NONE)],
    "left": [("-1%", "-1%"), ("1px,", NONE)],
    "row-gap": [("Normal", "normal"), ("-1px", NONE)],
    "column-gap": [("calc(1px - 2px)", "0px"), ("auto", NONE)],
    "opacity": [("85%", "0.85"), ("200%", "1"), ("2", "1"), ("-1", "0"), ("min(5%, 8%)", "0.05"), ("calc(1 / 3)", "calc(1 / 3)"),
                ("1px", NONE), ("calc(1 / 0)", NONE)],
    "z-index": [("Auto", "auto"), ("-7", "-7"), ("calc(1.5)", "2"), ("calc(-1.5)", "-1"), ("1.5", NONE)],
    "order": [("-1", "-1"), ("calc(2 * 3)", "6"), ("auto", NONE)],
    "flex-grow": [("0.5", "0.5"), ("-1", NONE)],
    "flex-shrink": [("calc(-1)", "0"), ("1px", NONE)],
    "background-color": [("Transparent", "rgba(0, 0, 0, 0)"), ("currentColor", "currentcolor"), ("rgb(0 0 0 / 25%)", "rgba(0, 0, 0, 0.25)"),
                         ("none", NONE)],
    "outline-offset": [("-1px", "-1px"), ("0", "0px"), ("5%", NONE)],
}


def unset(name, inherits, initial):
    return PARENT.get(name, initial) if inherits else initial


def lines_of(element, declared, value, is_told):
    """The lines of an element that declares one property: its value, or where it is none that of `unset`, and the cause if it is told."""
    for name, inherits, initial in PROPERTIES:
        is_declared = name == declared
        computed = value if is_declared and value is not NONE else unset(name, inherits, initial)
        yield "%d %s = %s\n" % (element, name, computed)
        if is_declared and value is NONE and is_told:
            yield "%d %s ! mismatch\n" % (element, name)


def document(styles):
    parent = "; ".join("%s: %s" % declaration for declaration in PARENT.items())
    elements = [{"parent": None, "style": parent}] + [{"parent": 0, "style": style} for style in styles]
    return json.dumps({"elements": elements, "show": [name for name, _, _ in PROPERTIES]})


def report(values, is_told):
    root = ["0 %s = %s\n" % (name, PARENT.get(name, initial)) for name, _, initial in PROPERTIES]
    rest = [line for element, (name, value) in enumerate(values, 1) for line in lines_of(element, name, value, is_told)]
    return "".join(root + rest)


def computed_values():
    """The names, documents and reports of two rows: a value that is none is ignored where it stands, and is a mismatch by a reference."""
    cases = [(name, text, value) for name, texts in COMPUTED.items() for text, value in texts]
    values = [(name, value) for name, _, value in cases]
    ignored = ["# element %d declaration 0: bad value\n" % element for element, (_, value) in enumerate(values, 1) if value is NONE]
    yield "ordinary-values", document("%s: %s" % (name, text) for name, text, _ in cases), "".join(ignored) + report(values, False)
    by_reference = ("--v: %s; %s: var(--v)" % (text, name) for name, text, _ in cases)
    yield "ordinary-values-by-reference", document(by_reference), report(values, True)
