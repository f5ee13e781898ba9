"""A script and a certificate as whole numbers alone, which `tests/plain_checker.cpp` reads: names are places, a set of values is a number with a bit for each,
from the lowest, in the order in which points are numbered. It takes what `mgcall` reads, and says nothing of what it doesn't."""
import itertools
import json

from shared import certificates, scripts

WORDS = ["add", "modify", "move", "subtract", "topology"]
SUBTRACT_ALL = len(WORDS)
TOPOLOGIES = ["isolate", "oneway", "bothway"]
# The kinds of notes, in the order in which a call takes them, and what an item of an events list raises of them.
KINDS = ["on", "of", "fl", "full", "part"]
RAISED = {"al/on": ["on"], "al/of": ["of"], "al/fl": ["fl"], "dd/ce": ["full", "part"]}
# The most lines, and the most contexts; what stands for nothing; a setting of a Remote that is left out.
MOST, NOTHING, LEFT_OUT = 4, -1, -2


def bits(places):
    """A number with the bits of these places."""
    return sum(1 << place for place in set(places))


class Names:
    """The places of a script's names. Ephemerals stand behind the four lines that there may be, among terminations and in a request's names alike."""

    def __init__(self, script):
        self.contexts = script.get("contexts", [])
        self.lines, self.ephemerals = script["lines"], script.get("ephemerals", [])
        self.quiet = ["none", *(each["name"] for each in script.get("signals", []) if not each.get("list"))]
        self.lists = ["none", "armed", *(each["name"] for each in script.get("events", []))]
        self.states = [state["name"] for state in script.get("state", [])]

    def termination(self, name):
        return self.lines.index(name) if name in self.lines else MOST + self.ephemerals.index(name)

    def remote(self, word):
        return NOTHING if word == "none" else self.ephemerals.index(word)

    def state(self, name):
        return NOTHING if name is None else self.states.index(name)

    def bits(self, named):
        """The bits of all of these that are names of contexts and of ephemerals, as a request uses and creates them."""
        own = {name: place for place, name in enumerate(self.contexts)} | {name: MOST + place for place, name in enumerate(self.ephemerals)}
        return bits(own[name] for name in named if name in own)


def settings(names, options):
    """Mode, events list, whether a signal may play, and Remote; each as a place, and `LEFT_OUT` or `NOTHING` where it is left out."""
    given = dict(option.split("=") for option in options)
    mode = certificates.MODES.index(given["mode"]) if "mode" in given else NOTHING
    events = names.lists.index(given["events"]) if "events" in given else NOTHING
    plays = int(given["signals"] not in names.quiet) if "signals" in given else NOTHING
    return [mode, events, plays, names.remote(given["remote"]) if "remote" in given else LEFT_OUT]


def command(names, text):
    """A command: what it does; its context, NOTHING for the null context; its terminations, the second one of a topology alone; the topology; whether it
    creates its ephemeral; its settings; the names that it uses and those that it creates."""
    word, context, first, *rest = text.split(" ")
    made = [name[1:] for name in (context, first) if name.startswith("$")]
    context, first = context.removeprefix("$"), first.removeprefix("$")
    does = SUBTRACT_ALL if first == "*" else WORDS.index(word)
    of = NOTHING if first == "*" else names.termination(first)
    second, topology = (names.termination(rest[0]), TOPOLOGIES.index(rest[1])) if word == "topology" else (NOTHING, NOTHING)
    set_to = settings(names, [] if word == "topology" else rest)
    used = [name for name in (context, first) if name not in made]
    used += [name.removeprefix("remote=") for name in rest]
    uses, creates = (names.bits(named) for named in (used, made))
    place = NOTHING if context == "-" else names.contexts.index(context)
    return [does, place, of, second, topology, int(first in made), *set_to, uses, creates]


def pairs_of(names, state):
    """A bit for each pair of lines, as they stand in order, that a state doesn't mark."""
    marked = {frozenset(pair.split("-")) for pair in state.get("talk", [])}
    return bits(place for place, pair in enumerate(itertools.combinations(names.lines, 2)) if frozenset(pair) not in marked)


def state_lines(names, state):
    """A state: whether it ends; where it leads after a reply, a fault and the timer; its unmarked pairs, its commands; where notes lead, by line and kind."""
    commands = [command(names, text) for text in state.get("do", [])]
    leads = [names.state(state.get(key)) for key in ("ok", "fault", "timer")]
    yield [int(state.get("end", False)), *leads, pairs_of(names, state), len(commands)]
    yield from commands
    on = state.get("on", {})
    yield [names.state(on.get(line, {}).get(kind)) for line in names.lines for kind in KINDS]


def list_line(events):
    """An events list: the kinds that it raises, and whether it is exactly off-hook with `strict=exact`."""
    raised = [KINDS.index(kind) for item in events for kind in RAISED[item.split("=")[0]]]
    return [bits(raised), int(events in (["al/of"], ["al/of=exact"]))]


def entry_line(names, script, entry):
    """An entry: its state, and a set for each component."""
    sets = []
    for _, listed, order, default in certificates.components(script, entry):
        sets.append(bits(order.index(value) for value in ([default] if listed is None else listed)))
    return [names.state(entry["state"]), *sets]


def lines(script, certificate):
    """The lines of a script and a certificate, as lists of numbers; the names of lines are told in a line of their own."""
    names = Names(script)
    entries = certificate["entries"]
    counts = [len(names.lines), len(names.contexts), len(names.ephemerals), len(names.lists), len(names.states), len(entries)]
    yield [*counts, names.state(script["start"]), names.state(script["restart"])]
    yield names.lines
    for events in ([], ["al/of"], *(each.get("list", []) for each in script.get("events", []))):
        yield list_line(events)
    for state in script.get("state", []):
        yield from state_lines(names, state)
    for entry in entries:
        yield entry_line(names, script, entry)


def sections(text):
    """The script and the certificate of an input of `mgcall check`, as texts."""
    found = [[]]
    for line in text.split("\n"):
        if line.removesuffix("\r") == "%%":
            found.append([])
        else:
            found[-1].append(line)
    script, certificate = ("\n".join(part) for part in found)
    return script, certificate


def text(source):
    """What the checker reads, of an input of `mgcall check`."""
    script, certificate = sections(source)
    written = lines(scripts.read(script.encode()), json.loads(certificate))
    return "".join(" ".join(map(str, line)) + "\n" for line in written)
