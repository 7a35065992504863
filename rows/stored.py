"""Rows that are stored in this folder: NAME.json, NAME.args, NAME.report, NAME.line and NAME.status, as `check` says."""

import os

from generated import COMPUTE, Row

HERE = os.path.dirname(os.path.abspath(__file__))


def content(name, end, absent):
    path = os.path.join(HERE, name + end)
    if not os.path.exists(path):
        return absent
    with open(path, "rb") as file:
        return file.read()


def row_names():
    return sorted({name for name, end in map(os.path.splitext, os.listdir(HERE)) if end in (".json", ".args")})


def stored_row(name):
    words = content(name, ".args", None)
    words = COMPUTE if words is None else words.decode().splitlines()
    status = int(content(name, ".status", b"0"))
    return Row(name, content(name, ".json", b""), words, content(name, ".report", b""), content(name, ".line", b""), status)


def stored_rows():
    return [stored_row(name) for name in row_names()]
