"""A first look: the program by `rt try`, which proves nothing and keeps no file."""
import re
import shutil
import subprocess
import sys

from running import program
from running.answers import Answer
from running.proving import tell

OF_REPORT = "| "  # before the lines of a report that rt tells of a run without an answer
LARGE = 200_000  # bytes of a document from which the proved program is wanted


def warn(data):
    """Says that the answer isn't proved, and by which command it will be."""
    why = "is older than its sources" if program.is_there() else "isn't there yet"
    tell(f"the proved program {why}: this is a first look, not proved, and takes about a minute; './run --prove' proves the program")
    if len(data) > LARGE:
        tell(f"a document of {len(data):,} bytes is large for a first look: './run --prove' first, if no answer comes")


def look(words, data):
    """The answer of the program to `data`, without a proof; None where there is no answer."""
    if shutil.which("rt") is None:
        tell("the Rattle kit's command 'rt' isn't on the path, and it alone can build the program")
        return None
    ended = subprocess.run(["rt", "try", "--", words.job, *words.options], cwd=program.HOME, input=data, capture_output=True)
    told = ended.stderr.decode("utf-8", "replace")
    verdict = re.search(r"^run=ended status=(\d+) ", told, re.MULTILINE)
    if verdict is None:
        sys.stderr.write("".join(line + "\n" for line in told.splitlines() if not line.startswith(OF_REPORT)))
        if re.search(r"^run=none ", told, re.MULTILINE):
            tell("nothing could be built of the sources; the lines above say why")
        else:
            tell("the first look gave no answer: it takes a minute of computing and 1 MiB of report at most; './run --prove' proves the program")
        return None
    lines = [line for line in told.splitlines() if line.startswith("cssvars: ")]
    return Answer(int(verdict.group(1)), "".join(line + "\n" for line in lines), ended.stdout)
