"""Scripts as Python reads them. It is installed too, so it knows nothing of this repository."""
from shared import asking

try:
    import tomllib
except ImportError:
    tomllib = None


def can_read():
    """Ends the tool where this Python reads no TOML."""
    if tomllib is None:
        asking.stop("a script is read by Python 3.11 or a later one, which reads TOML", asking.NO_PROGRAM)


def read(written):
    """The script that these bytes hold; a ValueError or a RecursionError where they are no TOML."""
    return tomllib.loads(written.decode("utf-8-sig"))


def look(names, texts):
    """Ends the tool where this Python doesn't read a TOML text that the program has read: the two libraries could differ."""
    for name, text in zip(names, texts):
        try:
            read(text)
        except (RecursionError, ValueError) as error:
            asking.stop(f"{name}: not as this Python reads it: {error}", asking.FILES)
