"""The style sheets of a page, in order: the browser's own, style elements, linked local files, and what those import."""
import os
from dataclasses import replace
from urllib.parse import unquote, urlsplit

import tinycss2

from pages import media
from pages.rules import Scope
from pages.tree import place_of

OWN_SHEET = os.path.join(os.path.dirname(os.path.abspath(__file__)), "user_agent.css")
OWN_NAME = "browser"


class Sheets:
    """Loads sheets; their files are named as the page names them, from the folder of the page."""

    def __init__(self, page, left_out, screen):
        self.folder = os.path.dirname(os.path.abspath(page))
        self.page = page
        self.left_out = left_out
        self.screen = screen

    def read_all(self, elements, places, reader):
        """Reads each sheet of the page into the reader."""
        with open(OWN_SHEET, "rb") as file:
            reader.read_sheet(nodes_of(file.read()), Scope(OWN_NAME, author=False))
        numbers = {"style": 0, "link": 0}
        for element in elements:
            name = element.wrapper.local_name.lower()
            if name not in numbers:
                continue
            start = place_of(places, name, numbers[name])
            numbers[name] += 1
            if element.is_html("style") and self.applies(element):
                text = element.wrapper.etree_element.text or ""
                reader.read_sheet(nodes_of(text), Scope(self.page, start.content_line))
            elif element.is_html("link") and is_sheet(element) and self.applies(element):
                loaded = self.load(element.get("href"), Scope(self.page), element.line)
                if loaded is not None:
                    reader.read_sheet(*loaded)

    def applies(self, element):
        """Whether the media attribute of an element holds, and its type is CSS."""
        if element.get("type", "text/css").split(";")[0].strip().lower() not in ("", "text/css"):
            return False
        holds = media.matches(tinycss2.parse_component_value_list(element.get("media", "")), self.screen)
        if holds is None:
            self.left_out.add(self.page, element.line, f"a sheet for media {element.get('media')!r}, which can't be told")
        return holds is True

    def load(self, url, scope, line):
        """The nodes of the sheet that a URL names, and the scope of its rules; None where it isn't a local file."""
        path = self.path_of(url, scope.file)
        if path is None:
            self.left_out.add(scope.file, line, f"the sheet {url}, which is no local file")
            return None
        try:
            with open(path, "rb") as file:
                nodes = nodes_of(file.read())
        except OSError as error:
            self.left_out.add(scope.file, line, f"the sheet {url} ({error.strerror})")
            return None
        return nodes, replace(scope, file=self.name_of(path), line=1)

    def path_of(self, url, base):
        """The path of a URL that is seen from a file; None where it is no local one."""
        parts = urlsplit(url.strip())
        if parts.scheme not in ("", "file") or parts.netloc or not parts.path:
            return None
        folder = self.folder if base == self.page else os.path.dirname(os.path.join(self.folder, base))
        return os.path.normpath(os.path.join(folder, unquote(parts.path)))

    def name_of(self, path):
        """A path as it is told: from the folder of the page where it lies below that."""
        relative = os.path.relpath(path, self.folder)
        return path if relative.startswith("..") else relative


def is_sheet(element):
    """Whether a link element names a style sheet that is in use."""
    words = (element.get("rel") or "").lower().split()
    return "stylesheet" in words and "alternate" not in words and element.get("disabled") is None and bool((element.get("href") or "").strip())


def nodes_of(data):
    """The rules of a sheet given as bytes or as text."""
    if isinstance(data, bytes):
        return tinycss2.parse_stylesheet_bytes(data, skip_comments=True, skip_whitespace=True)[0]
    return tinycss2.parse_stylesheet(data, skip_comments=True, skip_whitespace=True)
