"""The HTML file of a view, put together of its parts, which lie beside this file."""
import html
import json
import os

HERE = os.path.dirname(os.path.abspath(__file__))


def view(data):
    """The text of an HTML file that stands alone."""
    title = data["page"] or "A document"
    parts = {"TITLE": html.escape(title), "STYLE": part("view.css"), "SCRIPT": part("view.js"), "DATA": embedded(data)}
    text = part("view.html")
    for name, value in parts.items():
        text = text.replace("{{" + name + "}}", value)
    return text


def part(name):
    """The text of a file beside this one."""
    with open(os.path.join(HERE, name), encoding="utf-8") as file:
        return file.read()


def embedded(data):
    """Data as JSON that may stand in a script element."""
    return json.dumps(data, ensure_ascii=False, separators=(",", ":")).replace("<", "\\u003c").replace("\u2028", "\\u2028").replace("\u2029", "\\u2029")
