"""Rows that are large or many of a kind: made here, and not stored."""

import json

from ordinary import computed_values

COMPUTE = ["compute"]


class Row:
    """A run of the program and what it has to write."""

    def __init__(self, name, given, words=None, report=b"", line=b"", status=0):
        self.name, self.given, self.status = name, given, status
        self.words = COMPUTE if words is None else words
        self.report, self.line = report, line


def done(name, given, report, words=None):
    return Row(name, given.encode(), words, report.encode())


def refused(name, given, status, line):
    return Row(name, given.encode(), None, b"", b"cssvars: %s\n" % line.encode(), status)


def styled(style, members=""):
    """A document of one element, whose style needs no escapes."""
    return '{"elements":[{"parent":null,"style":"%s"}]%s}' % (style, members)


# Brackets within brackets, of documents and of declarations.
BRACKETS = [("round", "(", ")"), ("square", "[", "]"), ("curly", "{", "}"), ("function", "f(", ")")]


def nested_documents():
    deep = "[" * 127 + "]" * 127
    elements = '"elements":[{"parent":null,"style":"--a:1"}]'
    yield refused("document-127-deep", "[" + deep[1:-1] + "]", 5, "malformed: field ")
    yield refused("document-128-deep", "[" + deep + "]", 5, "malformed: not JSON")
    yield refused("member-128-deep", '{"more":%s,%s}' % (deep, elements), 5, "malformed: not JSON")
    yield done("member-127-deep", '{"more":%s,%s}' % (deep[1:-1], elements), "0 --a = 1\n")


def nested_values():
    note = "# element 0 declaration 0: too deep\n"
    for name, opened, closed in BRACKETS:
        kept = "0 --a = %s%s\n" % (opened * 128, closed * 128)
        yield done("value-128-deep-" + name, styled("--a: " + opened * 128), kept)
        yield done("value-129-deep-" + name, styled("--a: " + opened * 129), note)
        yield done("value-129-deep-closed-" + name, styled("--a: " + opened * 129 + closed * 129), note)
    million = 1000000
    yield done("value-a-million-deep", styled("--a: " + "[" * million + "]" * million), note)
    yield done("block-a-million-deep", styled("{" * million), "# element 0 declaration 0: not a declaration\n")
    yield done("rule-a-million-deep", '{"sheet":"%s","elements":[{"parent":null}]}' % ("{" * million),
               "# sheet rule 0: skipped\n")
    across = "--a:%s%s; --l:%svar(--a)%s" % ("(" * 100, ")" * 100, "(" * 100, ")" * 100)
    yield done("substitution-200-deep", styled(across),
               "0 --a = %s%s\n0 --l = %s%s\n" % ("(" * 100, ")" * 100, "(" * 200, ")" * 200))


# Each array of a document: the text up to its first item, a further item, how many there may be, and the lines of the report
# for an item.
ARRAYS = [
    ("elements", '{"elements":[', '{"parent":null}', ',{"parent":0}', 16384, ""),
    ("show", '{"elements":[{"parent":null}],"show":[', '"--a"', ',"--a"', 2048, "0 --a invalid\n"),
    ("commands", '{"elements":[{"parent":null}],"commands":[', '{"do":"size","element":0}',
     ',{"do":"unwatch","watcher":0}', 4096, ""),
]


def arrays_at_their_limits():
    for name, before, first, item, most, line in ARRAYS:
        yield done("most-" + name, before + first + item * (most - 1) + "]}", line * most)
        yield refused("more-" + name, before + first + item * most + "]}", 4, "too large: " + name)
        yield refused("counted-before-read-" + name, before + "7" + ",7" * most + "]}", 4, "too large: " + name)


def bytes_at_their_limit():
    document = styled("--a: 1;")
    yield done("most-bytes", document + " " * (16777216 - len(document)), "0 --a = 1\n")
    yield refused("more-bytes", " " * 16777217, 4, "too large: bytes")


def of_names(count, members=""):
    return styled("".join("--n%d:1;" % number for number in range(count)), members)


def names_at_their_limit():
    lines = "".join("0 --n%d = 1\n" % number for number in range(2048))
    yield done("most-names", of_names(2048), lines)
    yield done("most-names-shown-again", of_names(2048, ',"show":["--n0"],"commands":[]'), "0 --n0 = 1\n")
    has = '{"do":"has","element":9,"name":"--m"}'
    put = '{"do":"set","element":0,"name":"--m","value":""}'
    for name, count, members in [
            ("more-names", 2049, ""),
            ("more-names-shown", 2048, ',"show":["--n0","--m"]'),
            ("more-names-of-a-command", 2048, ',"commands":[%s]' % has),
            ("more-names-together", 2047, ',"show":["--l"],"commands":[%s]' % put)]:
        yield refused(name, of_names(count, members), 4, "too large: names")


def doubling(last, style, members):
    """Names up to the last one, each the name before it twice."""
    doubled = "".join("; --p%d: var(--p%d) var(--p%d)" % (k, k - 1, k - 1) for k in range(1, last + 1))
    return styled("--p0: a a" + doubled + style, members)


def lists_at_the_limit():
    yield done("list-past-the-limit", doubling(14, "", ',"show":["--p13","--p14"]'),
               "0 --p13 invalid\n0 --p13 ! limit\n0 --p14 invalid\n0 --p14 ! missing\n")
    yield done("list-of-the-limit", doubling(14, "; --q: var(--p12)b; --r: var(--p12) b", ',"show":["--q","--r"]'),
               "0 --q = %s/**/b\n0 --r invalid\n0 --r ! limit\n" % " ".join(["a"] * 8192))
    many = "; --q: " + " ".join(["var(--p12)"] * 1000)
    yield done("list-far-past-the-limit", doubling(14, many, ',"show":["--q"]'), "0 --q invalid\n0 --q ! limit\n")


def long_chains():
    chain = "; ".join("--n%d: var(--n%d)" % (k, k - 1) for k in range(2047, 0, -1))
    yield done("chain-of-2048", styled(chain + "; --n0: 1", ',"show":["--n2047"]'), "0 --n2047 = 1\n")
    yield done("ring-of-2048", styled(chain + "; --n0: var(--n2047, 1)", ',"show":["--n2047","--n0"]'),
               "0 --n2047 invalid\n0 --n2047 ! cycle\n0 --n0 invalid\n0 --n0 ! cycle\n")


def fronts():
    """Each front of a document is no JSON."""
    small = styled("--a:  1px ")
    larger = '{"viewport":{"width":1,"height":2},"elements":[{"parent":null,"style":"--a: \\"1\\""}]}'
    for name, document in [("small-document", small), ("larger-document", larger)]:
        for end in range(len(document)):
            yield refused("front-of-%d-bytes-of-a-%s" % (end, name), document[:end], 5, "malformed: not JSON")


# Texts of one token each, or of a whole block, with what the table below calls them.
TOKENS = [
    ("a", "ident"), ("-a", "ident"), ("--", "--"), ("f(", "function"), ("url(u)", "url"), ("@a", "at"), ("#a", "hash"), ("#1", "hash"),
    ('"s"', "string"), ("1", "number"), ("-1", "number"), ("+1", "number"), (".5", "number"), ("1%", "percentage"), ("1px", "dimension"),
    ("1e-", "dimension"), ("1\\65 1", "dimension"), (" ", "white"), ("<!--", "cdo"), ("-->", "cdc"), (":", ":"), (";", ";"), (",", ","),
    ("#", "#"), ("-", "-"), ("+", "+"), (".", "."), ("@", "@"), ("/", "/"), ("<", "<"), (">", ">"), ("*", "*"), ("%", "%"), ("!", "!"),
    ("&", "&"), ("(", "("), ("[", "["), ("{", "{"), ("()", "("), ("[]", "["), ("{}", "{")]

CLOSING = {"f(": ")", "(": ")", "[": "]", "{": "}"}

# CSS Syntax 3, "Serialization": behind which token a comment has to stand before which. A bad url, which the standard has among the
# names, never gets into a report.
NAMES = {"ident", "--", "function", "url"}
NUMERICS = {"number", "percentage", "dimension"}
SEPARATED = {
    "ident": NAMES | NUMERICS | {"-", "cdc", "("},
    "--": NAMES | NUMERICS | {"-", "cdc", "(", ">"},
    "at": NAMES | NUMERICS | {"-", "cdc"},
    "hash": NAMES | NUMERICS | {"-", "cdc"},
    "dimension": NAMES | NUMERICS | {"-", "cdc"},
    "number": NAMES | NUMERICS | {"cdc", "%"},
    "#": NAMES | NUMERICS | {"-", "cdc"},
    "-": NAMES | NUMERICS | {"-", "cdc"},
    "+": NUMERICS,
    ".": NUMERICS,
    "@": NAMES | {"-", "cdc"},
    "/": {"*"},
    "<": {"!"},
}


def printed_pair(first, second):
    """How a report writes two tokens side by side within square brackets; the blocks that they open are closed behind them."""
    (text, kind), (next_text, next_kind) = first, second
    if kind == next_kind == "white":
        return "[ ]"
    comment = "/**/" if next_kind in SEPARATED.get(kind, ()) else ""
    return "[" + text + comment + next_text + CLOSING.get(next_text, "") + CLOSING.get(text, "") + "]"


def pairs_of_tokens():
    """Each pair of tokens with a comment between them as it is printed; and what was printed, which is printed as it stands."""
    pairs = [(first, second) for first in TOKENS for second in TOKENS]
    printed = [printed_pair(*pair) for pair in pairs]
    report = "".join("%d --a = %s\n" % line for line in enumerate(printed))
    apart = ["[" + first[0] + "/**/" + second[0] for first, second in pairs]
    for name, texts in [("pairs-of-tokens", apart), ("pairs-of-tokens-read-back", printed)]:
        elements = [{"parent": number - 1 if number else None, "style": "--a: " + text} for number, text in enumerate(texts)]
        yield done(name, json.dumps({"elements": elements}), report)


def ordinary_values():
    for row in computed_values():
        yield done(*row)


# Names of commands, and the members with which they are refused.
BAD_COMMANDS = [
    (["clear", "size", "entries"],
     ["", ',"element":null', ',"element":"0"', ',"element":[0]', ',"element":-1', ',"element":0.0', ',"element":1e3',
      ',"element":4294967296']),
    (["get", "getAll", "has", "delete", "computed", "reify"],
     [',"name":"--a"', ',"element":"0","name":"--a"', ',"element":4294967296,"name":"--a"', ',"element":0',
      ',"element":0,"name":7', ',"element":0,"name":null']),
    (["set", "append"],
     [',"name":"--a","value":"1"', ',"element":-1,"name":"--a","value":"1"', ',"element":0,"value":"1"',
      ',"element":0,"name":[],"value":"1"', ',"element":0,"name":"--a"', ',"element":0,"name":"--a","value":1',
      ',"element":0,"name":"--a","value":null']),
    (["unwatch"],
     ["", ',"element":0', ',"watcher":null', ',"watcher":"0"', ',"watcher":-1', ',"watcher":4294967296']),
]


def bad_commands():
    before = '{"elements":[{"parent":null}],"commands":[{"do":"size","element":0},'
    for names, all_members in BAD_COMMANDS:
        for name in names:
            for number, members in enumerate(all_members):
                yield refused("bad-command-%s-%d" % (name, number), '%s{"do":"%s"%s}]}' % (before, name, members), 5,
                              "malformed: field commands/1")


def rows():
    for some in [nested_documents, nested_values, arrays_at_their_limits, bytes_at_their_limit, names_at_their_limit,
                 lists_at_the_limit, long_chains, fronts, pairs_of_tokens, ordinary_values, bad_commands]:
        yield from some()
