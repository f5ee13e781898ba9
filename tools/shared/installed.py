"""What the installed commands share: their version, and the program that answers. All stands below one folder, wherever that is put: this file in
lib/mgcall/shared, the commands and the programs in bin."""
import os
import sys
from pathlib import Path

from shared import arguments, asking, notes

LIBRARY = Path(__file__).resolve().parents[1]
PROGRAMS = LIBRARY.parents[1] / "bin"


def is_proved():
    """Whether the programs that are installed here are the proved ones."""
    return not (LIBRARY / "not-proved").exists()


def version():
    """The version that is installed here."""
    [text] = asking.read([LIBRARY / "VERSION"])
    return text.decode().strip()


def said_of(name):
    """What is said of the program of this name: whether it is there, and proved."""
    if not os.access(PROGRAMS / name, os.X_OK):
        return "not there"
    return "proved" if is_proved() else "built without its proofs"


def words(about, usage):
    """The words that a command was given. With --help it says what it does, and with --version which it is, with status 0."""
    if "--version" in arguments.options_in(sys.argv[1:]):
        print(usage.split()[0], version(), *([] if is_proved() else ["with programs that are not proved"]))
        sys.exit(0)
    return asking.words(about, usage)


def program(name):
    """The program of this name. If it isn't proved, a note on standard error says so, once."""
    found = PROGRAMS / name
    if not os.access(found, os.X_OK) or found.is_dir():
        asking.stop(f"{found}: no program is there", asking.NO_PROGRAM)
    if not is_proved():
        notes.once("answered by a program that is not proved")
    return found


def answered(name, asked, texts):
    """Gives the program of this name these words and texts, and says the status that it ends with."""
    return asking.ask(program(name), asked, texts)
