"""What of a page is left out, with file and line, and what was dropped by count."""
from collections import Counter

SHOWN = 6


class LeftOut:
    """Collects what is left out: alike things are told once, with their number."""

    def __init__(self):
        self.first = {}  # what is alike -> the first text of it, its file and its line
        self.counts = Counter()
        self.dropped = Counter()  # names of properties that the program doesn't know

    def add(self, file, line, text, alike=None):
        """Something at a line of a file is left out; what is alike is counted with it."""
        self.first.setdefault(alike or text, (text, file, line))
        self.counts[alike or text] += 1

    def drop(self, name):
        """A declaration of a property that the program doesn't know is dropped."""
        self.dropped[name] += 1

    def lines(self):
        """The whole as lines for people."""
        for alike, (text, file, line) in self.first.items():
            more = f" (and {self.counts[alike] - 1} more like it)" if self.counts[alike] > 1 else ""
            yield f"{file}:{line}: left out: {text}{more}"
        if self.dropped:
            names = ", ".join(f"{name} {count}" for name, count in self.dropped.most_common(SHOWN))
            more = ", .." if len(self.dropped) > SHOWN else ""
            yield f"dropped: {sum(self.dropped.values())} declarations of {len(self.dropped)} properties that the program doesn't know ({names}{more})"
