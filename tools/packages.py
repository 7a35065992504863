"""The packages that the tools stand on: which are missing, the command that brings them, and the Python that has them."""
import importlib.util
import os
import shutil
import subprocess
import sys

# The modules that tools/page needs, by the package of Debian that has them.
PACKAGES = {"python3-html5lib": "html5lib", "python3-cssselect2": "cssselect2", "python3-tinycss2": "tinycss2"}
# What the tests need besides, by package: a file that the package brings.
FOR_TESTS = {
    "chromium": "/usr/bin/chromium", "libjs-bootstrap5": "/usr/share/javascript/bootstrap5/css/bootstrap.css",
    "doxygen-awesome-css": "/usr/share/doxygen-awesome-css/doxygen-awesome.css",
}
SECONDS = 420  # for apt-get, where a network answers slowly or not at all
DEBIANS = "/usr/bin/python3"


def missing():
    """The packages whose modules this Python doesn't have."""
    return [package for package, module in PACKAGES.items() if importlib.util.find_spec(module) is None]


def missing_for_tests():
    """The packages that the tests need and that aren't here."""
    return ([] if interpreter() else list(PACKAGES)) + [package for package, file in FOR_TESTS.items() if not os.path.exists(file)]


def interpreter():
    """A Python that has the modules: this one, else Debian's; None where neither has them."""
    if not missing():
        return sys.executable
    check = "import " + ", ".join(PACKAGES.values())
    if os.access(DEBIANS, os.X_OK) and subprocess.run([DEBIANS, "-c", check], stderr=subprocess.DEVNULL).returncode == 0:
        return DEBIANS
    return None


def install_line(packages):
    """The command that brings packages."""
    return "apt-get install -y --no-install-recommends " + " ".join(packages)


def with_packages(script):
    """Goes on where this Python has the modules; else starts the script anew by the one that has, or ends with what is missing."""
    python = interpreter()
    if python is None:
        sys.exit(f"{os.path.basename(script)}: these packages are missing; this brings them: {install_line(PACKAGES)}")
    if python != sys.executable:
        os.execv(python, [python, os.path.abspath(script), *sys.argv[1:]])


def may_install():
    """Whether packages can be brought here: as root, by apt-get."""
    return os.geteuid() == 0 and shutil.which("apt-get") is not None


def install(packages):
    """Brings packages by apt-get; whether that went well."""
    quiet = {"stdout": subprocess.DEVNULL, "stderr": subprocess.DEVNULL, "stdin": subprocess.DEVNULL,
             "env": {**os.environ, "DEBIAN_FRONTEND": "noninteractive"}, "timeout": SECONDS}
    try:
        subprocess.run(["apt-get", "update", "-q", "-o", "Acquire::Retries=0", "-o", "Acquire::http::Timeout=20"], **quiet)
        return subprocess.run(install_line(packages).split(), **quiet).returncode == 0
    except (OSError, subprocess.TimeoutExpired):
        return False
