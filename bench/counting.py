"""What the scripts of this folder measure of the built program: instructions, which no load on the machine changes, and memory."""
import json
import os
import re
import shutil
import subprocess
import sys
import tempfile

HERE = os.path.dirname(os.path.abspath(__file__))
PROGRAM = os.path.join(HERE, "..", "crates", "cssvars", "out", "cssvars")


def stop_without(script, *tools):
    """Ends the script where the built program or one of the tools isn't there."""
    paths = [("the built program", PROGRAM)] + [(tool, shutil.which(tool) or tool) for tool in tools]
    for wanted, path in paths:
        if not os.path.exists(path):
            sys.exit(f"{script}: {wanted} isn't there: {path}")


def count_instructions(job, path):
    """The instructions of one run by valgrind's callgrind, or None where the program didn't end well."""
    with tempfile.TemporaryDirectory() as folder, open(path, "rb") as source:
        words = ["valgrind", "--tool=callgrind", f"--callgrind-out-file={folder}/out", PROGRAM, *job]
        ran = subprocess.run(words, stdin=source, stdout=subprocess.DEVNULL, stderr=subprocess.PIPE, text=True, check=False)
    found = re.search(r"Collected : (\d+)", ran.stderr)
    return int(found.group(1)) if ran.returncode == 0 and found else None


def run_once(job, path):
    """The exit status, the seconds of the processor and the peak memory in MiB. What the script holds is seen too, some 15 MiB."""
    with open(path, "rb") as source, open(os.devnull, "wb") as sink:
        child = subprocess.Popen([PROGRAM, *job], stdin=source, stdout=sink, stderr=sink)
        _, code, usage = os.wait4(child.pid, 0)
    child.returncode = os.waitstatus_to_exitcode(code)
    return child.returncode, usage.ru_utime + usage.ru_stime, usage.ru_maxrss / 1024


def figures_of(job, path):
    """The instructions and the peak memory of a run."""
    return {"instructions": count_instructions(job, path), "memory": round(run_once(job, path)[2], 1)}


def kept_figures(path):
    """The figures of the last landing by the title of their case; none where none are kept."""
    if not os.path.exists(path):
        return {}
    with open(path) as file:
        return json.load(file)


def keep_figures(path, figures):
    with open(path, "w") as file:
        json.dump(figures, file, indent=1)
        file.write("\n")


def is_chosen(title, words):
    """Whether a case is among those that the words of the command line choose, which are the beginnings of titles."""
    return not words or any(title.startswith(word) for word in words)
