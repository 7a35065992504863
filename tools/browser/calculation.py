"""What a calculation in px and percent is worth where a percentage is of a given length."""
import tinycss2

FUNCTIONS = {"min": min, "max": max, "calc": lambda value: value, "clamp": lambda least, value, most: max(least, min(value, most))}
BASES = (0, 1, 40, 150, 1000, 12345, -300)


def same_everywhere(one, other):
    """Whether two calculations are worth the same whatever a percentage is of; no, where one isn't read."""
    pairs = [(worth(one, basis), worth(other, basis)) for basis in BASES]
    return all(ours is not None and theirs is not None and abs(ours - theirs) < 1 / 64 for ours, theirs in pairs)


def worth(text, basis):
    """The number of a calculation, lengths in px; None where it isn't one of px, percentages and plain numbers."""
    try:
        return of_sum(significant(tinycss2.parse_component_value_list(text)), basis)
    except (KeyError, AttributeError, TypeError, IndexError, ZeroDivisionError):
        return None


def significant(tokens):
    """The tokens without whitespace and comments."""
    return [token for token in tokens if token.type not in ("whitespace", "comment")]


def of_sum(tokens, basis):
    """The number of factors and terms, one after the other."""
    total, sign, at = 0, 1, 0
    while at < len(tokens):
        value = of_term(tokens[at], basis)
        while at + 1 < len(tokens) and tokens[at + 1] in ("*", "/"):
            factor = of_term(tokens[at + 2], basis)
            value = value * factor if tokens[at + 1] == "*" else value / factor
            at += 2
        total += sign * value
        sign = {"+": 1, "-": -1}[tokens[at + 1].value] if at + 1 < len(tokens) else 1
        at += 2
    return total


def of_term(token, basis):
    """The number of one number, length, percentage, function or pair of brackets."""
    if token.type == "percentage":
        return token.value * basis / 100
    if token.type == "number" or token.type == "dimension" and token.lower_unit == "px":
        return token.value
    if token.type == "() block":
        return of_sum(significant(token.content), basis)
    return FUNCTIONS[token.lower_name](*(of_sum(part, basis) for part in at_commas(significant(token.arguments))))


def at_commas(tokens):
    """The parts between the commas."""
    parts = [[]]
    for token in tokens:
        if token == ",":
            parts.append([])
        else:
            parts[-1].append(token)
    return parts
