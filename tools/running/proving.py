"""Proving and building the program, crate by crate, with a line for each crate that is proved."""
import os
import shutil
import signal
import subprocess
import sys
import tempfile
import time

from running import program

# A crate is proved by two processors at least, where there are two.
AT_ONCE = max(1, (os.cpu_count() or 1) // 2)
MOST_LINES = 10  # of a log that are told


def prove():
    """Proves each crate that the program stands on, lowest first, and builds it. Whether that went well."""
    if shutil.which("rt") is None:
        tell("the Rattle kit's command 'rt' isn't on the path, and it alone can prove the program")
        return False
    signal.signal(signal.SIGTERM, lambda number, frame: sys.exit(128 + number))  # so that what was started is ended too
    order, began = program.crates_in_order(), time.monotonic()
    tell(f"proving {len(order)} crates, up to {AT_ONCE} at a time; what was proved before is kept, the first time takes half an hour and more")
    logs = tempfile.mkdtemp(prefix="cssvars-prove-")
    if not prove_in_order(order, logs, began):
        return False
    shutil.rmtree(logs, ignore_errors=True)
    program.stamp()
    tell(f"proved and built in {spoken(time.monotonic() - began)}: {os.path.relpath(program.PROGRAM)}")
    return True


def prove_in_order(order, logs, began):
    """Proves the crates, some at once, each after those that it uses. Whether all were proved."""
    uses = program.uses_of_crates()
    done, waiting, running = [], list(order), {}
    try:
        while waiting or running:
            for crate in [crate for crate in waiting if all(used in done or used not in order for used in uses[crate])]:
                if len(running) < AT_ONCE:
                    waiting.remove(crate)
                    running[crate] = start(crate, os.path.join(logs, crate))
            crate = first_ended(running)
            if running.pop(crate).returncode != 0:
                fail(crate, os.path.join(logs, crate))
                return False
            done.append(crate)
            tell(f"{crate} proved ({len(done)} of {len(order)}), {spoken(time.monotonic() - began)}")
        return True
    finally:
        for child in running.values():
            child.terminate()
            child.wait()


def start(crate, log):
    """Starts the proof of a crate, which builds it too."""
    home = os.path.join(program.CRATES, crate)
    if crate != "cssvars":
        words, source = ["rt", "lib"], os.devnull
    else:
        words, source = ["rt", "run", "--", "compute"], os.path.join(home, "stdin")
    with open(log, "wb") as sink, open(source, "rb") as given:
        return subprocess.Popen(words, cwd=home, stdin=given, stdout=sink, stderr=subprocess.STDOUT)


def first_ended(running):
    """The name of a child that has ended, once there is one."""
    while True:
        for crate, child in running.items():
            if child.poll() is not None:
                return crate
        time.sleep(0.2)


def fail(crate, log):
    """Tells that a crate wasn't proved, with the first errors of its log, or its end where it names none."""
    with open(log, encoding="utf-8", errors="replace") as file:
        lines = file.read().splitlines()
    errors = [line for line in lines if ": error: " in line]
    for line in errors[:MOST_LINES] or lines[-MOST_LINES:]:
        print(f"    {line}", file=sys.stderr)
    tell(f"{crate} was not proved; the whole log is {log}")


def spoken(seconds):
    """A span of time as people say it."""
    minutes, seconds = divmod(round(seconds), 60)
    return f"{minutes} min {seconds} s" if minutes else f"{seconds} s"


def tell(text):
    """One line on standard error."""
    print(f"run: {text}", file=sys.stderr, flush=True)
