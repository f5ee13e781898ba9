"""Notes on standard error beside an answer: each is printed once a command, and none with `--quiet`. It is installed too, so it knows nothing of this
repository."""
from __future__ import annotations

from shared import streams

QUIET = "--quiet"
# What this process has noted, and whether it is quiet.
NOTED: set[str] = set()
STATE = {QUIET: False}


def hush() -> None:
    """Prints no notes from now on."""
    STATE[QUIET] = True


def is_quiet() -> bool:
    """Whether no notes are printed."""
    return STATE[QUIET]


def once(text: str) -> None:
    """Prints a note, unless it was printed before."""
    if text not in NOTED and not is_quiet():
        streams.note(text)
    NOTED.add(text)
