"""The words of the formats, and the form of names. It is installed too, so it knows nothing of this repository."""
import re

NAME = re.compile(r"[a-z][a-z0-9_]{0,15}")
RESERVED = ("none", "armed", "gone", "absent")
COMMANDS = ("add", "modify", "move", "subtract", "topology")
OPTIONS = ("mode", "events", "signals", "remote")
MODES = ("Inactive", "SendOnly", "ReceiveOnly", "SendReceive")
TOPOLOGIES = ("isolate", "oneway", "bothway")
EVENTS = ("al/on", "al/of", "al/fl", "dd/ce")
STRICTNESSES = ("exact", "state")
SIGNALS = ("al/ri", "cg/dt", "cg/rt", "cg/bt", "cg/ct")
KINDS = ("on", "of", "fl", "full", "part")
STEPS = ("off", "on", "flash", "pause", "digit", "end", "execute", "reply", "pass", "timer", "note", "hear", "begin", "restart")
SYMBOLS = tuple("0123456789EF")
# How many letters of a word are shown.
MOST_SHOWN = 120
# What is said of a name that isn't one.
FORM = "a name has 1 to 16 lower-case letters, digits and `_`, the first a letter"


def is_name(text):
    """Whether a text has the form of a name."""
    return NAME.fullmatch(text) is not None


def shown(word):
    """A word as a sentence shows it."""
    return f"`{word if len(word) <= MOST_SHOWN else word[:MOST_SHOWN] + '..'}`"


def listed(words):
    """Words of the format in a sentence."""
    *fronts, last = (f"`{word}`" for word in words)
    return ", ".join(fronts) + (" and " if fronts else "") + last


def parts(text):
    """The words of a text between its spaces, each with how many bytes stand before it."""
    before, found = 0, []
    for word in text.split(" "):
        found.append((word, before))
        before += len(word.encode()) + 1
    return found


def one_space(text):
    """Where a text has two spaces side by side, or one at an end: the byte of the first that is too many; none where all is well."""
    if text.startswith(" "):
        return 0
    place = text.find("  ")
    if place < 0 and text.endswith(" "):
        place = len(text) - 1
    else:
        place += 1 if place >= 0 else 0
    return None if place < 0 else len(text[:place].encode())
