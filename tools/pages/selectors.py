"""Selectors: nesting is written out, what never matches on a page that nobody touches is told, and cssselect2 compiles."""
import cssselect2
import tinycss2

# Pseudo-classes that are valid, that cssselect2 doesn't know, and that hold nowhere on a page as it was loaded.
NEVER = frozenset((
    "autofill", "-webkit-autofill", "fullscreen", "-webkit-full-screen", "modal", "popover-open", "picture-in-picture", "user-valid",
    "user-invalid", "host", "host-context", "target-within", "target-current", "active-view-transition", "blank", "xr-overlay"))
# A pseudo-class with the same weight, of which cssselect2 knows that it matches nothing.
NOTHING = "hover"
# Pseudo-classes that attributes tell, as selectors of the same weight that cssselect2 knows.
FIELDS = ":where(input, select, textarea)"
WRITTEN = {
    "required": FIELDS + "[required]", "optional": FIELDS + ":not([required])",
    "placeholder-shown": ':where(input:not([value]:not([value=""])), textarea:empty)[placeholder]',
}
# Pseudo-classes that browsers know and cssselect2 doesn't; a rule with any other that it doesn't know no browser takes.
UNKNOWN_HERE = frozenset((
    "valid", "invalid", "read-only", "read-write", "indeterminate", "default", "in-range",
    "out-of-range", "defined", "open", "dir", "state", "popover-open", "has-slotted", "buffering", "muted", "paused", "playing", "seeking"))
# Pseudo-elements are no elements of the tree; those that cssselect2 doesn't know.
PSEUDO_ELEMENTS = frozenset((
    "backdrop", "cue", "details-content", "view-transition", "highlight", "part", "slotted", "checkmark", "picker-icon", "scroll-marker"))
OTHER_ENGINES = ("-moz-", "-ms-", "-o-", "-khtml-")


class BadSelector(Exception):
    """A list with a selector that Chromium doesn't take: there the whole rule counts for nothing."""


def split_selectors(tokens):
    """The selectors of a list, as lists of tokens."""
    parts = [[]]
    for token in tokens:
        if token == ",":
            parts.append([])
        elif token.type != "comment":
            parts[-1].append(token)
    return parts


def written_out(tokens, parents):
    """The text of one selector; inside of the rules that match `parents` (a text) it is written out with them."""
    text = rewritten(tokens, parents).strip()
    if parents is not None and not holds_nesting(tokens):
        return f":is({parents}) {text}"
    return text


def holds_nesting(tokens):
    """Whether `&` stands in the tokens, at any depth."""
    return any(token == "&" or holds_nesting(getattr(token, "arguments", None) or getattr(token, "content", None) or ()) for token in tokens)


def rewritten(tokens, parents):
    """The text of tokens, where `&` is the parents, and pseudo-classes that cssselect2 doesn't know are written in those that it knows."""
    text, previous = "", None
    for token in tokens:
        if token == "&":
            text += f":is({parents})" if parents is not None else ":root"
        elif token.type == "function":
            name = NOTHING if token.lower_name in NEVER else token.name
            inner = "" if name == NOTHING else f"({rewritten(token.arguments, parents)})"
            text += name + inner
        elif token.type == "ident" and previous == ":" and token.lower_value in NEVER:
            text += NOTHING
        elif token.type == "ident" and previous == ":" and token.lower_value in WRITTEN:
            text = text[:-1] + WRITTEN[token.lower_value]
        else:
            text += token.serialize()
        previous = token
    return text


def names_pseudo_element(tokens):
    """Whether a selector ends in a pseudo-element that cssselect2 doesn't know; `BadSelector` where one of another engine stands in it."""
    found = False
    for before, colon, token in zip([None] + tokens, tokens, tokens[1:]):
        if colon == ":" and token.type in ("ident", "function"):
            name = token.lower_value if token.type == "ident" else token.lower_name
            if name.startswith(OTHER_ENGINES):
                raise BadSelector(f"for another engine, with :{name}")
            found = found or before == ":" and (name.startswith("-webkit-") or name in PSEUDO_ELEMENTS)
    return found


def compiled(tokens, parents=None):
    """The compiled selectors of a list that match elements, and those that are left out, with what isn't known of them.

    `BadSelector` where browsers take none of the list.
    """
    found, left = [], []
    parts = split_selectors(tokens)
    if any([names_pseudo_element(part) for part in parts]):
        parts = [part for part in parts if not names_pseudo_element(part)]
    for part in parts:
        text = written_out(part, parents)
        try:
            new = [one for one in cssselect2.compile_selector_list(text) if one.pseudo_element is None]
            for one in new:
                one.specificity = tuple(map(sum, zip(one.specificity, weight_of_lists(part))))
            found += new
        except Exception as error:  # cssselect2 fails in several ways on what it doesn't know
            unknown = str(error.args[-1]) if error.args else type(error).__name__
            if unknown not in UNKNOWN_HERE and not isinstance(error, NotImplementedError):
                raise BadSelector(f"with a selector that no browser takes, {text}") from None
            left.append((text, unknown))
    return found, left


def weight_of_lists(tokens):
    """What the list behind `of` in :nth-child() adds to a selector's specificity, which cssselect2 doesn't count."""
    weight = (0, 0, 0)
    for token in tokens:
        if token.type == "function" and token.lower_name in ("nth-child", "nth-last-child"):
            words = [argument.lower_value if argument.type == "ident" else None for argument in token.arguments]
            if "of" in words:
                inner = cssselect2.compile_selector_list(token.arguments[words.index("of") + 1:])
                weight = tuple(map(sum, zip(weight, max(one.specificity for one in inner))))
    return weight


def is_selector(tokens):
    """Whether cssselect2 takes a selector."""
    try:
        return bool(cssselect2.compile_selector_list(tinycss2.serialize(tokens)))
    except Exception:  # as above
        return False
