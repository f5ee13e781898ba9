"""The way of a call in the words of a plan: what users and the gateway do so that each move of it is made. A configuration has no hooks, so these are kept
along the way, with the notes that nobody takes. Nothing is decided here: the moves are those that `mgexplain` tells. It is installed too, so it knows
nothing of this repository."""
import re
from collections import namedtuple

from shared import requests

# A move: the steps of a plan that make it, or where none do the words of the check; and the state and the link behind it.
Move = namedtuple("Move", "plan words state link")
KINDS = ("on", "of", "fl", "full", "part")
# What an item of an events list raises.
RAISED = {"al/on": ("on",), "al/of": ("of",), "al/fl": ("fl",), "dd/ce": ("full", "part")}
SYMBOLS = "0123456789EF"
# A position of a digit map: a range in brackets, or one sign.
POSITION = re.compile(r"\[([^\]]*)\]|(.)")
# A run of a range: two digits with a hyphen between them, or one sign.
RUN = re.compile(r"(\d)-(\d)|(.)")


def accepted(range_of, sign):
    """The symbols that a position accepts: those of the runs of its range, or of its sign."""
    if sign:
        return SYMBOLS[:10] if sign in "xX" else sign.upper()
    runs = [SYMBOLS[int(low) : int(high) + 1] if low else one.upper() for low, high, one in RUN.findall(range_of)]
    return [symbol for symbol in SYMBOLS if any(symbol in run for run in runs)]


def alternatives(text):
    """The alternatives of a digit map, each a list of what its positions accept."""
    inside = text[1:-1] if text.startswith("(") and text.endswith(")") else text
    return [[accepted(*found) for found in POSITION.findall(part)] for part in inside.split("|")]


def takes(alternative, symbols):
    """Whether an alternative takes these symbols as its first ones."""
    return len(symbols) <= len(alternative) and all(symbol in position for symbol, position in zip(symbols, alternative))


class Lines:
    """The lines of a call along a way: their hooks, the notes that they raised, and which of these the call hasn't taken."""

    def __init__(self, script):
        self.script, self.names = script, script["lines"]
        self.lists = {"none": [], "armed": ["al/of"], **{each["name"]: each.get("list", []) for each in script.get("events", [])}}
        self.maps = {each["name"]: each["map"] for each in script.get("maps", [])}
        self.states = {state["name"]: state for state in script["state"]}
        self.off = dict.fromkeys(self.names, False)
        self.restart()

    def restart(self):
        """Nothing is armed, and notes begin anew."""
        self.dialled = dict.fromkeys(self.names, False)
        self.ready, self.waiting, self.sent = {}, [], 0

    # ---- notes

    def raised(self, line, kind):
        """A note is raised, and sent."""
        self.sent += 1
        self.ready[line, kind] = self.sent
        self.waiting.append(self.sent)

    def forget(self, line):
        """No note of a line can be taken, and its list, if it has one, waits for a whole number."""
        for kind in KINDS:
            self.ready.pop((line, kind), None)
        self.dialled[line] = False

    def arm(self, line, name):
        """A line is given a list, which a hook may meet that stands so."""
        self.forget(line)
        if ("al/of=state" if self.off[line] else "al/on=state") in self.lists[name]:
            self.raised(line, "of" if self.off[line] else "on")

    def take(self, line, kind):
        """The note of a line and kind is taken: with its number where one lies before it."""
        number = self.ready.pop((line, kind))
        is_first = self.waiting[:1] == [number]
        self.waiting = [other for other in self.waiting if other != number]
        return "note" if is_first else f"note {number}"

    # ---- what users do

    def hook(self, before, line, is_off):
        """A hook goes to a state, which its line's list may detect."""
        self.off[line] = is_off
        kind = "of" if is_off else "on"
        if any(kind in RAISED[item.partition("=")[0]] for item in self.lists[before[f"lines.{line}.events"]]):
            self.raised(line, kind)
        return [f"{'off' if is_off else 'on'} {line}"]

    def turn(self, before, line, is_off):
        """A hook goes to a state from the other one, to which it goes first where it is there already."""
        first = self.hook(before, line, not is_off) if self.off[line] == is_off else []
        return first + self.hook(before, line, is_off)

    def lifted(self, before, line):
        """What brings a line off hook."""
        return [] if self.off[line] else self.hook(before, line, True)

    def number(self, text, line):
        """The steps that dial a whole number of a digit map."""
        found = alternatives(text)
        symbols = [position[0] for position in found[0]] if all(found[0]) else []
        pause = [f"pause {line}"] if sum(takes(other, symbols) for other in found) > 1 else []
        return [f"digit {line} {symbol}" for symbol in symbols] + pause

    def dial(self, before, line, kind):
        """Completes the digit map of a line's list, once since the list was armed: a pause alone completes it by a part. None where that can't be done."""
        maps = [item.partition("=")[2] for item in self.lists[before[f"lines.{line}.events"]] if item.startswith("dd/ce=")]
        if not maps or self.dialled[line]:
            return None
        steps = [f"pause {line}"] if kind == "part" else self.lifted(before, line) + self.number(self.maps[maps[0]], line)
        self.dialled[line] = True
        self.raised(line, kind)
        return steps

    def reported(self, before, line, kind):
        """What raises a note of a line and kind; None where nothing does."""
        if kind in ("on", "of"):
            return self.turn(before, line, kind == "of")
        if kind == "fl":
            steps = [*self.lifted(before, line), f"flash {line}"]
            self.raised(line, kind)
            return steps
        return self.dial(before, line, kind)

    def observe(self, before, line, kind):
        """A note of a line and kind is raised, if none lies there, and taken. Without steps where it can't be."""
        steps = [] if (line, kind) in self.ready else self.reported(before, line, kind)
        return [] if steps is None else [*steps, self.take(line, kind)]

    # ---- what the gateway does

    def request(self, before):
        """The commands of the request that the state builds: those that use names alone that are bound or created before."""
        contexts = {"-", *(path.partition(".")[2] for path, value in before.items() if path.startswith("contexts.") and value != "free")}
        others = {path.split(".")[1] for path, value in before.items() if path.startswith("ephemerals.") and path.endswith(".at") and value != "absent"}
        terminations = {"*", "none", *self.names, *others}
        for place, text in enumerate(self.states[before["state"]].get("do", [])):
            command = requests.command({"command_place": place, "command": text})
            used = {command.second or "none", command.options.get("remote", "none"), *([] if command.makes_termination else [command.termination])}
            if used <= terminations and (command.makes_context or command.context in contexts):
                contexts.add(command.context)
                terminations.add(command.termination)
                yield command

    def command(self, at, command):
        """A command is done, where lines stand so; says where they stand behind it."""
        line = command.termination
        if command.verb == "subtract":
            gone = [each for each in self.names if at[each] == command.context] if line == "*" else [line] if line in at else []
            for each in gone:
                self.forget(each)
            return {**at, **dict.fromkeys(gone, "-")}
        if line in at and "events" in command.options:
            self.arm(line, command.options["events"])
        return {**at, line: command.context} if line in at and command.verb in ("add", "move") else at

    def execute(self, before, most=None):
        """The commands of the request of a configuration are done, so many at most."""
        at = {line: before[f"lines.{line}.at"] for line in self.names}
        for command in [*self.request(before)][:most]:
            at = self.command(at, command)

    def steps(self, before, words, is_sent):
        """The steps of a plan that make a move from a configuration, whose request was sent or is empty. Without steps where none make it."""
        word, _, place = words.partition(" ")
        if word == "hear":
            self.restart()
            return ["restart", "hear"]
        if word == "refuse":
            self.execute(before, int(place))
            return [f"execute refuse {place}"]
        if word == "execute":
            self.execute(before)
        elif "." in word:
            return self.observe(before, *word.split("."))
        return ["pass" if word == "reply" and not is_sent else word]


def valued(told):
    """The values of a configuration that is told, or of what of it changes: its state, and each component."""
    return {"state": told["state"], **{part["component"]: part["value"] for part in told["parts"]}}


def moves(script, way):
    """The moves of a way that is told, in the words of a plan."""
    lines, before, is_sent = Lines(script), valued(way["opening"]), False
    for told in way["moves"]:
        words, after = told["step"], {**before, **valued(told)}
        plan = lines.steps(before, words, is_sent)
        yield Move(plan, words, after["state"], after["link"])
        is_sent = words.split()[0] in ("execute", "refuse") or after["link"] == "sent"
        before = after
