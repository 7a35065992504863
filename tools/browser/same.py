"""Whether two texts of values say the same: token by token, numbers to a 64th."""
import re

import tinycss2

NEAR = 1 / 64
NUMBER = r"-?[0-9]+(?:\.[0-9]+)?(?:e[-+]?[0-9]+)?"
# A fraction that no decimal writes, alone or in a calculation.
FRACTION = re.compile(rf"(?:calc)?\(({NUMBER})([a-z%]*) / ({NUMBER})\)", re.IGNORECASE)


def same(ours, browsers):
    """Whether the program's text and the browser's say the same value."""
    if ours == browsers:
        return True
    return same_tokens(tokens_of(with_decimals(ours)), tokens_of(browsers))


def with_decimals(text):
    """A text in which fractions are decimals, as browsers write them."""
    return FRACTION.sub(lambda match: f"{float(match.group(1)) / float(match.group(3)):.9f}{match.group(2)}", text)


def same_tokens(ours, theirs):
    """Whether two lists of tokens are the same, numbers to a 64th."""
    return len(ours) == len(theirs) and all(same_token(one, other) for one, other in zip(ours, theirs))


def same_token(one, other):
    """Whether two tokens are the same; those of numbers are a kind, a number and a unit."""
    if one[0] != other[0]:
        return False
    if one[0] == "number":
        return one[2] == other[2] and abs(one[1] - other[1]) <= max(NEAR, abs(one[1]) * 1e-5)
    return one == other


def tokens_of(text):
    """The tokens of a text without comments, each run of whitespace as one, none at the ends."""
    found = list(flat(tinycss2.parse_component_value_list(text)))
    joined = [token for place, token in enumerate(found) if token != (" ",) or place > 0 and found[place - 1] != (" ",)]
    while joined and joined[0] == (" ",):
        del joined[0]
    while joined and joined[-1] == (" ",):
        del joined[-1]
    return joined


def flat(nodes):
    """The tokens of component values, brackets written out."""
    for node in nodes:
        if node.type == "whitespace":
            yield (" ",)
        elif node.type in ("number", "percentage", "dimension"):
            yield ("number", node.value, node.lower_unit if node.type == "dimension" else "%" if node.type == "percentage" else "")
        elif node.type == "function":
            yield ("function", node.lower_name)
            yield from flat(node.arguments)
            yield (")",)
        elif node.type.endswith(" block"):
            yield (node.type[0],)
            yield from flat(node.content)
            yield (node.type[1],)
        elif node.type == "error":
            yield ("error", node.kind)
        elif node.type != "comment":
            yield (node.type, node.value)
