"""Documents of a given size for the scripts of this folder: each function answers a document as a Python value."""
import json
import os

MEBIBYTE = 1 << 20


def document(elements, **members):
    return dict(members, elements=[{"parent": parent, "style": style} for parent, style in elements])


def long_value(size):
    """One declaration of one long value, so many MiB; a document of 16 is as long as one may be."""
    return document([(None, "--a: " + "word 12px " * ((size * MEBIBYTE - 60) // 10))], show=[])


def declarations(size):
    """Declarations of 2048 names, over and over, so many MiB."""
    style = "".join(f"--n{i}: {i:4}px;" for i in range(2048))
    return document([(None, style * ((size * MEBIBYTE - 60) // len(style)))], show=[])


def chain(count):
    return document([(None, "--a: 1")] + [(i, "") for i in range(count - 1)], show=["--a"])


def star(count):
    return document([(None, "--a: 1")] + [(0, "") for _ in range(count - 1)], show=["--a"])


def tree(count):
    return document([(None, "--a: 1")] + [((i - 1) // 2, "") for i in range(1, count)], show=["--a"])


def declaring_chain(count):
    """Each element declares a name, whose value reads the parent's value of another."""
    return document([(None, "--a: 1; --b: var(--a)")] + [(i, "--b: var(--a) 2") for i in range(count - 1)])


def names(count):
    return document([(None, "; ".join(f"--n{i}: {i}px" for i in range(count)))])


def references(count):
    """A chain of names, written from the last to the first."""
    style = [f"--n{i}: var(--n{i - 1})" for i in range(count - 1, 0, -1)] + ["--n0: 1px"]
    return document([(None, "; ".join(style))])


def ring(count):
    """A chain of names whose first refers to the last."""
    return document([(None, "; ".join(f"--n{i}: var(--n{(i or count) - 1})" for i in range(count)))])


def doubling(count):
    """Each name is the one before it, twice: the thirteenth has 16383 tokens, and the next ones pass the limit."""
    style = ["--p0: a a"] + [f"--p{i}: var(--p{i - 1}) var(--p{i - 1})" for i in range(1, count)]
    return document([(None, "; ".join(style))], show=[f"--p{count - 1}"])


def sixteen(count):
    """Names that each refer to sixteen names without references."""
    style = [f"--l{i}: {i}px" for i in range(16)]
    style += [f"--n{i}: " + " ".join(f"var(--l{(i + k) % 16})" for k in range(16)) for i in range(count - 16)]
    return document([(None, "; ".join(style))])


def sixteen_round(count):
    """Names that each refer to the sixteen after them, the last ones to the first, so that all are on cycles."""
    def value(i):
        return " ".join(f"var(--n{(i + k) % count})" for k in range(1, 17))
    return document([(None, "; ".join(f"--n{i}: {value(i)}" for i in range(count)))], show=[])


def sixteen_deep(count):
    """Names that each refer to sixteen before them, with fallbacks: many lists pass the limit."""
    def value(i):
        return " ".join(f"var(--n{(i * 7 + k * 13) % i}, 1)" for k in range(16)) if i else "1"
    return document([(None, "; ".join(f"--n{i}: {value(i)}" for i in range(count)))], show=[])


def nested_fallbacks(depth):
    """One value of a fixed length within so many fallbacks, each of a name that isn't there."""
    return document([(None, "--a: " + "var(--x," * depth + "word 12px " * 20000 + ")" * depth)], show=[])


def under_names(count, names, declared):
    """A binary tree under a root with so many names; each element declares so many of them anew, and two are shown."""
    root = "; ".join(f"--n{i}: {i}px a b" for i in range(names))

    def style(i):
        return "; ".join(f"--n{(i * 7 + k) % names}: {i}px" for k in range(declared))
    elements = [(None, root)] + [((i - 1) // 2, style(i)) for i in range(1, count)]
    return document(elements, show=["--n0", f"--n{names - 1}"])


def declaring_twenty(count):
    """A chain of elements that each declare twenty names."""
    style = "; ".join(f"--n{i}: {i}px" for i in range(20))
    return document([(None if i == 0 else i - 1, style) for i in range(count)], show=["--n0"])


def registered(name, syntax="<length>", initial="0px", inherits="false"):
    return f'@property {name} {{ syntax: "{syntax}"; inherits: {inherits}; initial-value: {initial} }}'


def registrations(count):
    """So many registered names that inherit, each declared on the root, over 64 elements that each declare two of them."""
    sheet = " ".join(registered(f"--n{i}", inherits="true") for i in range(count))
    root = "; ".join(f"--n{i}: {i}px" for i in range(count))
    elements = [(None, root)] + [((i - 1) // 2, f"--n{i % count}: 2em; --n{i * 7 % count}: 1px") for i in range(1, 64)]
    return document(elements, sheet=sheet, show=["--n0"])


def registered_chain(count):
    """A chain of registered names, each of which refers to the one before it."""
    sheet = " ".join(registered(f"--n{i}") for i in range(count))
    style = [f"--n{i}: calc(var(--n{i - 1}) + 1px)" for i in range(count - 1, 0, -1)] + ["--n0: 1px"]
    return document([(None, "; ".join(style))], sheet=sheet, show=[f"--n{count - 1}"])


def held_chain(count):
    """Half as many registered names as names; each holds `em` through a chain of the unregistered ones."""
    half = count // 2
    sheet = " ".join(registered(f"--r{i}") for i in range(half))
    style = ["--u0: 1em"] + [f"--u{i}: var(--u{i - 1})" for i in range(1, half)] + [f"--r{i}: var(--u{i})" for i in range(half)]
    return document([(None, "; ".join(style))], sheet=sheet, show=[f"--r{half - 1}"])


def ordinary_tree(count):
    """A binary tree whose elements each declare ordinary properties, by variables of the root and by themselves."""
    root = "--space: 4px; --wide: calc(var(--space) * 3); font-size: 20px; color: #336699"
    style = "width: calc(100% - 2 * var(--wide)); padding-left: 1em; line-height: 1.5; margin-top: var(--space)"
    return document([(None, root)] + [((i - 1) // 2, style) for i in range(1, count)], show=["width", "padding-left"])


def write_document(path, make, *size):
    """Writes a document in a process of its own: what this one holds would count as memory of the programs that it starts."""
    writer = os.fork()
    if writer == 0:
        with open(path, "w") as file:
            json.dump(make(*size), file)
        os._exit(0)
    os.waitpid(writer, 0)
