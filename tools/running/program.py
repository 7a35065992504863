"""The proved program: where it lies, what it is made of, and whether it is newer than its sources."""
import json
import os
import subprocess

TOP = os.path.dirname(os.path.dirname(os.path.dirname(os.path.abspath(__file__))))
CRATES = os.path.join(TOP, "crates")
HOME = os.path.join(CRATES, "cssvars")
PROGRAM = os.path.join(HOME, "out", "cssvars")
# Its time is that of the last proof by ./run, for a proof that finds nothing changed leaves the program as it is.
STAMP = os.path.join(HOME, "out", "proved-by-run")


def crates_in_order(name="cssvars"):
    """The crates of this repository that `name` stands on, lowest first, and `name` itself last."""
    below, order = uses_of_crates(), []

    def visit(crate):
        """Puts a crate behind those that it uses."""
        if crate in below and crate not in order:
            for used in below[crate]:
                visit(used)
            order.append(crate)

    visit(name)
    return order


def uses_of_crates():
    """What each crate of crates.txt uses, by name."""
    uses = {}
    with open(os.path.join(TOP, "crates.txt"), encoding="utf-8") as lines:
        for line in lines:
            head, colon, tail = line.split("#")[0].partition(":")
            if colon:
                uses[head.split()[0]] = tail.split()
    return uses


def is_current():
    """Whether there is a proved program that is newer than each source that it is made of."""
    if not os.access(PROGRAM, os.X_OK):
        return False
    built = max(os.path.getmtime(path) for path in (PROGRAM, STAMP) if os.path.exists(path))
    return all(os.path.getmtime(source) <= built for crate in crates_in_order() for source in sources(crate))


def report_of(document):
    """The proved program's report of a document; None where there is no such program, or no report."""
    if not is_current():
        return None
    ended = subprocess.run([PROGRAM, "compute"], input=json.dumps(document).encode(), stdout=subprocess.PIPE, stderr=subprocess.DEVNULL)
    return ended.stdout.decode("utf-8") if ended.returncode == 0 else None


def is_there():
    """Whether there is a proved program, however old."""
    return os.access(PROGRAM, os.X_OK)


def sources(crate):
    """The paths of a crate's code, definitions and proofs."""
    for folder, folders, files in os.walk(os.path.join(CRATES, crate)):
        folders[:] = [name for name in folders if name not in ("out", "must-fail")]
        for file in files:
            if file.endswith((".rt", ".antt")):
                yield os.path.join(folder, file)


def stamp():
    """Notes that the program that is there was proved now."""
    with open(STAMP, "w", encoding="utf-8"):
        pass
