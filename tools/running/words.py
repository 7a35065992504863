"""The words of ./run: what is wanted, or why they are refused."""
import re
from dataclasses import dataclass, field
from typing import List, Optional

# The program's own options, each with the greatest number that it takes.
NUMBERS = {"--limit": 32768, "--size": 4096}
# The program's jobs, and whether each reads a document.
JOBS = {"compute": True, "reify": True, "gen": False}


class BadWords(Exception):
    """A word that ./run doesn't take; its text is one line for the user."""


@dataclass
class Words:
    """What one call of ./run asks for."""

    job: str = "compute"
    has_job: bool = False  # whether the job was named
    options: List[str] = field(default_factory=list)  # words that are passed on to the program
    file: Optional[str] = None  # None is standard input
    viewport: Optional[str] = None
    names: bool = False
    prove: bool = False
    help: bool = False


def read_words(arguments):
    """The words as `Words`; `BadWords` where one isn't known, lacks its value or stands twice."""
    words, rest, only_files = Words(), list(arguments), False
    while rest:
        word = rest.pop(0)
        if word == "--" and not only_files:
            only_files = True
        elif only_files or not word.startswith("-") or word == "-":
            take_file(words, word)
        else:
            take_option(words, word, rest)
    if not JOBS[words.job] and (words.file is not None or words.names):
        raise BadWords(f"{words.job} reads no document, so it takes neither a file nor --names")
    if words.viewport is not None and not is_page(words.file):
        raise BadWords("--viewport wants a page, FILE.html; a document has its own viewport")
    return words


def take_file(words, word):
    """Takes a word that isn't an option: a job, or the file."""
    if word in JOBS and not words.has_job and words.file is None:
        words.job, words.has_job = word, True
        return
    if words.file is not None:
        raise BadWords(f"{word!r}: there is a file already, {words.file!r}")
    words.file = word


def take_option(words, word, rest):
    """Takes an option, and its value off `rest` where it has one."""
    name, equals, value = word.partition("=")
    if name in NUMBERS or name == "--viewport":
        if not equals:
            if not rest:
                raise BadWords(f"{name} wants a value")
            value = rest.pop(0)
        take_value(words, name, value)
    elif word in ("--help", "-h"):
        words.help = True
    elif word == "--prove":
        words.prove = True
    elif word == "--names":
        words.names = True
    else:
        raise BadWords(f"unknown option {word!r}")


def take_value(words, name, value):
    """Takes the value of an option that has one."""
    if name == "--viewport":
        if not re.fullmatch(r"\d{1,7}x\d{1,7}", value):
            raise BadWords(f"--viewport wants WIDTHxHEIGHT, such as 1280x720, not {value!r}")
        words.viewport = value
        return
    if any(option.startswith(name + "=") for option in words.options):
        raise BadWords(f"{name} stands twice")
    if not re.fullmatch(r"\+?[0-9]+", value) or not 1 <= int(value) <= NUMBERS[name]:
        raise BadWords(f"{name} wants a number from 1 to {NUMBERS[name]}, not {value!r}")
    words.options.append(f"{name}={value}")


def is_page(file):
    """Whether the file's name is that of a web page."""
    return file is not None and file.lower().endswith((".html", ".htm", ".xhtml"))
