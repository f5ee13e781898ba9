"""`make install` into folders that parts of the gate make: of the proved programs where they are there, else of those that are built without proofs."""
import os
from pathlib import Path

from gate import limits
from shared import programs

TOP = programs.TOP
PREFIX = "/usr"


def shell():
    """The environment of a shell that isn't inside the `make test` that this may run in."""
    return {name: value for name, value in os.environ.items() if not name.startswith(("MAKE", "MFLAGS", "GIT"))}


def make(*words):
    """Status, output and standard error of make in this repository."""
    result = limits.run(["make", "-s", *map(str, words)], cwd=TOP, env=shell(), capture_output=True, text=True, check=False)
    return result.returncode, result.stdout, result.stderr


def are_proved():
    """Whether both programs are proved here."""
    return all(programs.is_proved(name) for name in ("mgcall", "mgexplain"))


def into(folder, goal="install"):
    """Installs below a folder what is built here, or takes it away; gives the status, and the root."""
    if not are_proved():
        programs.provide_unproved(["mgcall", "mgexplain"])
    kind = [] if are_proved() else ["NOT_PROVED=1"]
    return make(goal, f"DESTDIR={folder}", f"PREFIX={PREFIX}", *kind)[0], Path(f"{folder}{PREFIX}")
