"""A request in few words, as an arrow of a ladder has it: its commands by what they do and to whom, each with what it sets. It is installed too, so it knows
nothing of this repository."""
import itertools
from collections import namedtuple

from shared import requests

# A piece of what stands at an arrow: its words, and its kind: empty for what is done, `refused`, or `faint` for what isn't done.
Piece = namedtuple("Piece", "words kind", defaults=("",))
REFUSED, FAINT = "refused", "faint"
# The marks of commands that are no part of a request, and of those that aren't done, in the words of `mgexplain`.
LEFT_OUT, WAS_REFUSED, NOT_REACHED = "left out", "REFUSED", "not reached"
SILENT = "silent"
# A blank at which words aren't parted into two lines.
UNBROKEN = "\u00a0"
# The option that is said only where a command sets nothing else: telephones are armed in nearly each request.
LAST = "events"


def sets(options):
    """What a command sets, by its options."""
    said = {key: SILENT if (key, value) == ("signals", "none") else f"remote {value}" if key == "remote" else value for key, value in options.items()}
    first = [value for key, value in said.items() if key != LAST]
    return " ".join(first or said.values())


def what(command):
    """What a command does, and to whom."""
    if command.verb == "topology":
        return "topology", f"{command.termination} {command.second} {command.word}"
    if command.termination == requests.ALL:
        return command.verb, f"all of {command.context}"
    into = f" to {command.context}" if command.verb == "move" else ""
    set_by = sets(command.options)
    return command.verb, f"{command.termination}{into}" + (f": {set_by}" if set_by else "")


def brief(told):
    """Commands that are told in few words, those together that follow each other and do the same."""
    said = [what(requests.command(each)) for each in told]
    of_verb = ((verb, [whom for _, whom in these]) for verb, these in itertools.groupby(said, lambda one: one[0]))
    return "; ".join(f"{verb}{UNBROKEN}{', '.join(one.replace(' ', UNBROKEN) for one in whom)}" for verb, whom in of_verb)


def refusal(refused):
    """A refusal by its code and its name."""
    return f"{refused['code']} {refused['code_name']}"


def pieces(told):
    """The pieces of a request that is told, as it is sent or as it came to the gateway."""
    commands = [each for each in told["request"] if each["mark"] != LEFT_OUT]
    done = [each for each in commands if each["mark"] not in (WAS_REFUSED, NOT_REACHED)]
    if done:
        yield Piece(brief(done))
    if "refused" in told:
        yield Piece(f"{refusal(told['refused'])}: {brief([each for each in commands if each['mark'] == WAS_REFUSED])}", REFUSED)
    if missed := [each for each in commands if each["mark"] == NOT_REACHED]:
        yield Piece(f"not reached: {brief(missed)}", FAINT)
