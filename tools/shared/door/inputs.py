"""The files that a command of mgtool takes. What of one can't be taken has one error with its name and the reason. It is installed too, so it knows nothing of
this repository."""
import sys
from collections import namedtuple

from shared import asking
from shared.door import declarations
from shared.door.diagnostics import TOP, Place, error, line
from shared.mistakes import toml_text
from shared.mistakes.nodes import Unread
from shared.mistakes.reading import MARK
from shared.mistakes.told import MOST_BYTES

SCRIPT, CERTIFICATE, PLAN, SCENARIOS = KINDS = ("script", "certificate", "plan", "file of scenarios")
STANDARD_INPUT = "<stdin>"
# The rule that is broken where a file can't be taken.
RULE = "input"
# The option of a certificate.
NAMED = declarations.CERTIFICATE.word
# What an empty file lacks.
EMPTY = {
    SCRIPT: "a script names its `lines`, its `start`, its `restart` and its states",
    CERTIFICATE: "a certificate is an object with `version` and `entries`",
    PLAN: "a plan lists calls",
    SCENARIOS: "it lists scenarios, each begun by `[[scenario]]`",
}
# The keys of which a file of scenarios has one at its top.
OF_SCENARIOS = {"scenario", "always", "at_end", "intents"}
# A file that was read: what it is taken for, its name as it is told, and its bytes.
Given = namedtuple("Given", "kind name text")


class Refused(Exception):
    """A file that can't be taken, with the error."""

    def __init__(self, told):
        super().__init__(told.text)
        self.told = told


class NotTaken(asking.Stopped):
    """The end of a command, since files can't be taken: with an error of each."""

    def __init__(self, refused):
        super().__init__("\n".join(map(line, refused)), asking.FILES)
        self.refused = refused


def taken(name):
    """The name as it is told, and as many bytes of the file as an input may have, and one more."""
    if name == declarations.STANDARD:
        return STANDARD_INPUT, sys.stdin.buffer.read(MOST_BYTES + 1)
    with open(name, "rb") as file:
        return name, file.read(MOST_BYTES + 1)


def kind_of(text):
    """What a text is by its front and its keys; none where that can't be told."""
    if text.removeprefix(MARK).lstrip().startswith(b"{"):
        return CERTIFICATE
    try:
        top = toml_text.read(text).value
    except Unread:
        return None
    if "state" not in top and OF_SCENARIOS & {*top}:
        return SCENARIOS
    return PLAN if "call" in top and "state" not in top else SCRIPT if "state" in top else None


def fault_of(kind, text):
    """Where a text can't be taken, and why; none where it can. What is wrong with a document of the right kind is for the view of its mistakes to say."""
    if len(text) > MOST_BYTES:
        return TOP, f"it has more than the {MOST_BYTES:,} bytes that an input may have"
    if not text.removeprefix(MARK).strip():
        return TOP, f"it is empty; {EMPTY[kind]}"
    try:
        text.decode()
    except UnicodeDecodeError as fault:
        before = text[: fault.start]
        return Place(before.count(b"\n") + 1, fault.start - before.rfind(b"\n")), "a byte that isn't of UTF-8"
    seems = kind_of(text)
    if seems not in (None, kind):
        named = f"; {NAMED} names it" if seems == CERTIFICATE else ""
        return TOP, f"this is a {seems}, and a {kind} has to stand in its place{named}"
    return None


def read(kind, name):
    """The file of a name; `Refused` where it can't be taken."""
    try:
        shown, text = taken(name)
    except (OSError, ValueError) as fault:
        says = (fault.strerror if isinstance(fault, OSError) else None) or str(fault)
        raise Refused(error(name, None, RULE, says)) from None
    if (fault := fault_of(kind, text)) is not None:
        raise Refused(error(shown, fault[0], RULE, fault[1]))
    return Given(kind, shown, text)


def read_each(names):
    """The files of these kinds and names, and the errors of those that can't be taken."""
    found, refused = [], []
    for kind, name in names:
        try:
            found.append(read(kind, name))
        except Refused as fault:
            refused.append(fault.told)
    return found, refused


def read_all(names):
    """The files of these names by their kinds, without those that aren't named; and the errors of those that can't be taken."""
    found, refused = read_each([(kind, name) for kind, name in names.items() if name is not None])
    return {one.kind: one for one in found}, refused


def needed(names):
    """The files of these names. Where one can't be taken the tool ends, with a line for each such."""
    found, refused = read_all(names)
    if refused:
        stopped = NotTaken(refused)
        print(stopped.said, file=sys.stderr)
        raise stopped
    return found
