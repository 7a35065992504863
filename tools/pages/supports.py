"""Conditions of @supports (Conditional Rules 3): a declaration is taken as supported where no other engine's prefix stands before it."""
from pages.media import all_of, any_of, opposite
from pages.selectors import is_selector

OTHER_ENGINES = ("-moz-", "-ms-", "-o-", "-khtml-")


def supported(tokens):
    """Whether a condition holds; None where that isn't known."""
    tokens = [token for token in tokens if token.type not in ("whitespace", "comment")]
    if tokens and tokens[0].type == "ident" and tokens[0].lower_value == "not":
        return opposite(supported(tokens[1:]))
    tests, words = tokens[::2], tokens[1::2]
    joins = {word.lower_value if word.type == "ident" else None for word in words}
    if not tests or len(joins) > 1 or not joins <= {"and", "or"} or len(tests) == len(words):
        return None
    join = any_of if joins == {"or"} else all_of
    return join(one_supported(test) for test in tests)


def one_supported(token):
    """Whether one test holds: a declaration or a condition in brackets, or selector()."""
    if token.type == "function" and token.lower_name == "selector":
        return is_selector(token.arguments)
    if token.type != "() block":
        return None
    inner = [part for part in token.content if part.type not in ("whitespace", "comment")]
    if len(inner) > 1 and inner[0].type == "ident" and inner[1] == ":":
        return not inner[0].lower_value.startswith(OTHER_ENGINES) and len(inner) > 2
    return supported(inner)
