"""Media queries (Media Queries 4): on the size of the viewport, on screen, and on what a desktop browser answers.

Each test is True, False, or None where it isn't known; a query that isn't known doesn't hold.
"""
from dataclasses import dataclass
from fractions import Fraction

PX = {"px": 1, "em": 16, "rem": 16, "in": 96, "cm": Fraction(9600, 254), "mm": Fraction(960, 254), "q": Fraction(240, 254),
      "pt": Fraction(4, 3), "pc": 16}
DPPX = {"dppx": 1, "x": 1, "dpi": Fraction(1, 96), "dpcm": Fraction(254, 9600)}

# What a desktop browser without any wishes of its user answers.
WORDS = {
    "prefers-color-scheme": "light", "prefers-reduced-motion": "no-preference", "prefers-reduced-transparency": "no-preference",
    "prefers-contrast": "no-preference", "prefers-reduced-data": "no-preference", "forced-colors": "none", "inverted-colors": "none",
    "hover": "hover", "any-hover": "hover", "pointer": "fine", "any-pointer": "fine", "scripting": "enabled", "update": "fast",
    "display-mode": "browser", "dynamic-range": "standard", "color-gamut": "srgb", "overflow-block": "scroll", "overflow-inline": "scroll",
}
# The words that are false when a feature stands alone, as in (prefers-contrast).
NONE_WORDS = ("none", "no-preference")
OPERATORS = {"<": lambda a, b: a < b, "<=": lambda a, b: a <= b, ">": lambda a, b: a > b, ">=": lambda a, b: a >= b, "=": lambda a, b: a == b}
FLIPPED = {"<": ">", "<=": ">=", ">": "<", ">=": "<=", "=": "="}


@dataclass(frozen=True)
class Screen:
    """The viewport of a screen of one pixel a px."""

    width: int
    height: int

    def numbers(self):
        """The features that have a number, by name."""
        size = {"width": self.width, "height": self.height, "device-width": self.width, "device-height": self.height}
        ratio = Fraction(self.width, max(self.height, 1))
        return {**size, "aspect-ratio": ratio, "device-aspect-ratio": ratio, "resolution": 1, "color": 8, "color-index": 0, "monochrome": 0, "grid": 0}


def matches(tokens, screen):
    """Whether a list of media queries holds on a screen; None where that isn't known. The empty list holds."""
    queries = split_at_commas([token for token in tokens if token.type not in ("whitespace", "comment")])
    if queries == [[]]:
        return True
    return any_of(query_holds(query, screen) for query in queries)


def split_at_commas(tokens):
    """The parts of a list between its commas."""
    parts = [[]]
    for token in tokens:
        if token == ",":
            parts.append([])
        else:
            parts[-1].append(token)
    return parts


def query_holds(tokens, screen):
    """Whether one query holds."""
    words = [token.lower_value if token.type == "ident" else None for token in tokens]
    negated = words[:1] == ["not"] and len(tokens) > 1 and words[1] is not None
    if negated or words[:1] == ["only"]:
        tokens, words = tokens[1:], words[1:]
    if not words or words[0] is None or words[0] == "not":
        return condition_holds(tokens, screen)
    holds = words[0] in ("all", "screen")
    if len(words) > 1:
        holds = all_of([holds, condition_holds(tokens[2:], screen) if words[1] == "and" else None])
    return opposite(holds) if negated else holds


def condition_holds(tokens, screen):
    """Whether a condition holds: tests in brackets, joined by `and` or `or`, or after `not`."""
    if tokens and tokens[0].type == "ident" and tokens[0].lower_value == "not":
        return opposite(condition_holds(tokens[1:], screen))
    tests, words = tokens[::2], tokens[1::2]
    joins = {word.lower_value if word.type == "ident" else None for word in words}
    if not tests or len(joins) > 1 or not joins <= {"and", "or"} or len(tests) == len(words):
        return None
    join = any_of if joins == {"or"} else all_of
    return join(in_brackets_holds(test, screen) for test in tests)


def in_brackets_holds(token, screen):
    """Whether one test in round brackets holds."""
    if token.type != "() block":
        return None
    inner = [part for part in token.content if part.type not in ("whitespace", "comment")]
    if inner and (inner[0].type == "() block" or inner[0].type == "ident" and inner[0].lower_value == "not"):
        return condition_holds(inner, screen)
    return feature_holds(inner, screen)


def feature_holds(tokens, screen):
    """Whether one feature holds: alone, with a value, or in a range."""
    if len(tokens) == 1 and tokens[0].type == "ident":
        return stands(tokens[0].lower_value, screen)
    if len(tokens) > 2 and tokens[0].type == "ident" and tokens[1] == ":":
        return has_value(tokens[0].lower_value, tokens[2:], screen)
    return range_holds(tokens, screen)


def stands(name, screen):
    """Whether a feature that stands alone is other than none."""
    if name in WORDS:
        return WORDS[name] not in NONE_WORDS
    number = screen.numbers().get(name)
    return None if number is None else number != 0


def has_value(name, tokens, screen):
    """Whether `(name: value)` holds."""
    if name == "orientation":
        given = tokens[0].lower_value if tokens[0].type == "ident" else None
        return given == ("portrait" if screen.height >= screen.width else "landscape")
    if name in WORDS:
        return tokens[0].type == "ident" and tokens[0].lower_value == WORDS[name]
    for prefix, operator in (("min-", ">="), ("max-", "<="), ("", "=")):
        number = screen.numbers().get(name[len(prefix):]) if name.startswith(prefix) else None
        if number is not None:
            given = number_of(tokens)
            return None if given is None else OPERATORS[operator](number, given)
    return None


def range_holds(tokens, screen):
    """Whether a range holds, as `(400px <= width < 700px)`."""
    sides, operators = [[]], []
    for token in tokens:
        if token in ("<", ">", "="):
            if sides[-1]:
                operators.append(token.value)
                sides.append([])
            else:
                operators[-1] += token.value
        elif token in ("<=", ">="):
            operators.append(token.value)
            sides.append([])
        else:
            sides[-1].append(token)
    names = [side[0].lower_value if len(side) == 1 and side[0].type == "ident" else None for side in sides]
    place = next((index for index, name in enumerate(names) if name in screen.numbers()), None)
    if place is None or not operators or any(operator not in OPERATORS for operator in operators):
        return None
    number, tests = screen.numbers()[names[place]], []
    for index, operator in enumerate(operators):
        other = number_of(sides[index] if index != place else sides[index + 1])
        flipped = operator if index == place else FLIPPED[operator]
        tests.append(None if other is None else OPERATORS[flipped](number, other))
    return all_of(tests)


def number_of(tokens):
    """The number of a length, a ratio, a resolution or a plain number; None for anything else."""
    if len(tokens) == 3 and tokens[1] == "/" and tokens[0].type == tokens[2].type == "number" and tokens[2].value:
        return Fraction(tokens[0].representation) / Fraction(tokens[2].representation)
    if len(tokens) != 1 or tokens[0].type not in ("number", "dimension"):
        return None
    value = Fraction(tokens[0].representation)
    if tokens[0].type == "number":
        return value
    factor = PX.get(tokens[0].lower_unit, DPPX.get(tokens[0].lower_unit))
    return None if factor is None else value * factor


def any_of(tests):
    """True where one holds, else None where one isn't known, else False."""
    tests = list(tests)
    return True if True in tests else None if None in tests else False


def all_of(tests):
    """False where one doesn't hold, else None where one isn't known, else True."""
    tests = list(tests)
    return False if False in tests else None if None in tests else True


def opposite(test):
    """The opposite of a test that is known."""
    return None if test is None else not test
