"""What the program answers to a document."""
from dataclasses import dataclass


@dataclass
class Answer:
    """The exit status, the line on standard error (empty where there is none), and the report as far as it was caught."""

    status: int
    line: str
    report: bytes
