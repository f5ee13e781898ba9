"""What is told of a place in a file: an error, a warning or a note, as compilers write it and as editors read it. Lines and columns count from 1, columns in
bytes. It is installed too, so it knows nothing of this repository."""
from collections import namedtuple

from shared.mistakes.findings import printable

ERROR, WARNING, NOTE = "error", "warning", "note"
# A place in a text.
Place = namedtuple("Place", "line column")
TOP = Place(1, 1)
# What is told: the name of the file, the place, which is None where the file can't be read, how grave it is, by which rule, which is empty for a note on what
# stands before it, and what.
Diagnostic = namedtuple("Diagnostic", "file place severity rule text")
# All that a check comes to: the name of the script, the line of `mgcall check`, which is empty where nobody was asked, the status to end with, what is told,
# and the texts of the files by their names.
Report = namedtuple("Report", "script line status diagnostics texts")


def error(file, place, rule, text):
    """An error."""
    return Diagnostic(file, place, ERROR, rule, printable(text))


def warning(file, place, rule, text):
    """A warning."""
    return Diagnostic(file, place, WARNING, rule, printable(text))


def note(file, place, text):
    """A note on what stands before it."""
    return Diagnostic(file, place, NOTE, "", printable(text))


def meant(file, place, rule, text):
    """A note that stands by itself: of what would be a warning, and is meant."""
    return Diagnostic(file, place, NOTE, rule, printable(f"meant: {text}"))


def line(told):
    """What is told in one line."""
    file = printable(told.file)
    at = f"{file}:{told.place.line}:{told.place.column}" if told.place else file
    return f"{at}: {told.severity}: {told.text}{f' [{told.rule}]' if told.rule else ''}"
