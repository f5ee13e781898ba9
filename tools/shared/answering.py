"""How the tools of this repository ask a program: the proved one where it is there, else one that is built without its proofs."""
from shared import asking, crates, notes, programs


def program(name):
    """The program of this name. Where it isn't proved here yet, it is one without its proofs, and a note on standard error says so, once."""
    try:
        found = programs.program(name)
    except (crates.NoToolchain, programs.NotBuilt) as missing:
        return asking.stop(f"{name} isn't built here: {missing.code}", missing.status)
    if found == programs.unproved(name):
        notes.once("answered by a program that is not proved yet")
    return found


def version():
    """The version of this repository."""
    return (programs.TOP / "VERSION").read_text().strip()


def said_of(name):
    """What is said of the program of this name: whether it is there, and proved."""
    if programs.is_proved(name):
        return "proved"
    return "built without its proofs" if programs.is_kept(name) else "not built yet"


def answered(name, asked, texts):
    """Gives the program of this name these words and texts, and says the status that it ends with."""
    return asking.ask(program(name), asked, texts)
