"""The differences between the program and a browser that are known, each with its reason.

Each reason goes with a test of one case; the first that holds is the case's.
"""
from browser.calculation import same_everywhere
from documents.properties import inherits, is_custom

DISPLAYS = ("inline", "block", "inline-block", "flex", "grid", "contents", "none")
LENGTHS = ("width", "height", "margin", "padding", "top", "right", "bottom", "left", "gap", "text-indent", "letter-spacing", "line-height", "font-size", "outline-offset")
KEYWORDS = ("fit-content", "min-content", "max-content", "-webkit-fill-available", "stretch", "anchor-center")
MONOSPACE = "monospace"
CONTROLS = ("input", "button", "select", "option", "optgroup", "textarea", "meter", "progress", "dialog", "fieldset", "legend", "iframe")


def follows(case):
    """The value is inherited from an element on which it differs for a known reason."""
    return case.parent is not None and (case.parent, case.name) in case.known and (is_custom(case.name) or inherits(case.name) or case.ours == "inherit")


def follows_font(case):
    """The value is a length on an element, or under a root, whose font size differs for a known reason."""
    fonts = [(case.element, "font-size"), (0, "font-size")]
    return any(font in case.known for font in fonts) and (is_custom(case.name) or any(word in case.name for word in LENGTHS))


def other_display(case):
    """The display is a keyword that the program doesn't have."""
    return case.name == "display" and case.here().values["display"] not in DISPLAYS


def blockified(case):
    """The display is made one of a block."""
    if case.name != "display" or case.ours not in ("inline", "inline-block") or case.browsers != "block":
        return False
    facts, above = case.here().facts, case.above()
    return above is None or facts["float"] != "none" or facts["position"] in ("absolute", "fixed") or "flex" in above.facts["display"] or \
        "grid" in above.facts["display"] or above.facts["display"] == "contents"


def outside_grammar(case):
    """A declaration of the name is ignored here."""
    return (case.element, case.name) in case.ignored


def intrinsic(case):
    """The size is a keyword for the size of the content."""
    return case.browsers.startswith(KEYWORDS)


def simplified(case):
    """Numbers of one unit in a min() or max() are made one; the calculation is worth the same."""
    return case.browsers.startswith(("min(", "max(", "calc(", "clamp(")) and same_everywhere(case.ours, case.browsers)


def control(case):
    """The browser's own sheet has more on form controls and dialogs, and another with each version."""
    return case.here().tag in CONTROLS and not is_custom(case.name) and case.name not in case.authored


def monospaced(case):
    """The element is set in a monospaced font."""
    return case.name == "font-size" and MONOSPACE in case.here().facts["font-family"]


def snapped(case):
    """The offset of an outline is cut to whole pixels of the device."""
    return case.name == "outline-offset" and case.ours.endswith("px") and case.browsers == f"{int(float(case.ours[:-2]))}px"


def too_small(case):
    """The font size is below the least that Chromium makes of one that is relative."""
    return case.name == "font-size" and case.browsers == "6px" and float(case.ours[:-2]) < 6


KNOWN = (
    ("the display is none of the seven keywords of the program's grammar", other_display),
    ("a browser makes the display of roots, floats, and items of flex and grid boxes one of a block; the program computes no boxes", blockified),
    ("the size is a keyword for the content's size, which the program's grammar leaves out", intrinsic),
    ("the value declared is outside of the program's grammar of the property, so it ignores the declaration, with a note", outside_grammar),
    ("a simplification joins numbers of one unit in min() and max(), which a browser leaves apart beside a percentage", simplified),
    ("the browser's own sheet for form controls and dialogs, which changes with its versions; tools/pages has the main lines of it", control),
    ("a browser's own size of monospaced fonts is 13px in place of 16px", monospaced),
    ("a browser cuts the offset of an outline to whole pixels of the device", snapped),
    ("Chromium's least font size is 6px, unless a smaller one is given in px", too_small),
    ("it is inherited from an element on which it differs for one of these reasons", follows),
    ("it is computed from a font size that differs for one of these reasons", follows_font),
)
