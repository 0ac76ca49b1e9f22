"""What the tests of the package share."""
import os
import subprocess
import sys

PYTHON = os.path.dirname(os.path.dirname(os.path.abspath(__file__)))
TOP = os.path.dirname(PYTHON)
PROGRAM = os.path.abspath(os.environ.get("ROSIE", os.path.join(TOP, "crates", "rosie", "out", "rosie")))
BUILT_COLUMNS = os.path.join(TOP, "crates", "rosie_columns", "out", "rosie_columns")
COLUMNS = os.path.abspath(os.environ.get("ROSIE_COLUMNS", BUILT_COLUMNS))
os.environ["ROSIE"] = PROGRAM
EXAMPLES = os.path.join(TOP, "examples")
sys.path.insert(0, PYTHON)

try:
    import hypothesis
except ImportError:
    hypothesis = None
NO_HYPOTHESIS = "there is no hypothesis for this Python"


def command(*words, text=b"", folder=None):
    """Runs the command by hand."""
    return subprocess.run([PROGRAM, *words], input=text, capture_output=True, check=False, cwd=folder)


def children():
    """The processes that this one has started and that are there still, also those that have ended unasked."""
    found = []
    for task in os.listdir("/proc/self/task"):
        with open(f"/proc/self/task/{task}/children", encoding="ascii") as file:
            found += [int(number) for number in file.read().split()]
    return sorted(found)


def alive(number):
    """Whether there is such a process and it hasn't ended."""
    try:
        with open(f"/proc/{number}/stat", encoding="utf-8", errors="replace") as file:
            return file.read().rpartition(")")[2].split()[0] not in "ZX"
    except OSError:
        return False
