"""Shorthands with var(): the program substitutes in their text, as in that of a custom property, and then they are expanded."""
from dataclasses import replace

import tinycss2

from documents.report import Line, read_report
from pages.cascade import is_winner, style_text
from pages.shorthands import expand

STAND_IN = "--cssvars-shorthand-"  # the custom properties that stand for shorthands


def with_shorthands(applied, document, report_of):
    """What applies to each element, where the longhands of shorthands with var() have their values.

    `report_of` gives the report of a document, or None; `document` has the elements of the page without their styles.
    """
    names = {}  # of the stand-ins, by the text of the shorthand
    wanted = [shorthands_in_use(one) for one in applied]
    for texts in wanted:
        for text in texts:
            names.setdefault(text, f"{STAND_IN}{len(names)}")
    if not names:
        return applied
    elements = [{"parent": element["parent"], "style": style_text(one, False) + stand_ins(texts, names)}
                for element, one, texts in zip(document["elements"], applied, wanted)]
    report = report_of({**document, "elements": elements, "show": list(names.values())})
    if report is None:
        return applied
    values = {(line.element, line.name): line.value for line in read_report(report) if isinstance(line, Line) and line.cause is None}
    return [[told(one, values.get((index, names.get(one.declared.shorthand)))) for one in its] if texts else its
            for index, (its, texts) in enumerate(zip(applied, wanted))]


def shorthands_in_use(applied):
    """The texts of the shorthands with var() of which a longhand wins."""
    return list(dict.fromkeys(one.declared.shorthand for one in applied if one.declared.shorthand and is_winner(one, applied)))


def stand_ins(texts, names):
    """The declarations of the stand-ins of shorthands."""
    return "".join(f" {names[text]}: {text.partition(':')[2]};" for text in texts)


def told(applied, text):
    """A longhand with the value that the shorthand gives it, whose text after substitution is given (None where it is invalid).

    Where that isn't a value of the shorthand, the longhand keeps the text with var(), so that it is invalid for the same cause.
    """
    declared = applied.declared
    if not declared.shorthand:
        return applied
    name, _, written = declared.shorthand.partition(":")
    longhands = [] if text is None else expand(tinycss2.parse_one_declaration(f"{name}: {text or '/**/'}"))[0]
    value = dict(longhands).get(declared.name, written.strip())
    return replace(applied, declared=replace(declared, value=value))
