"""What becomes of the commands of a state over each way into it, counted anew from a certificate whose points are the configurations that calls come to. A
request is gone through command by command, each of which is left out, done, refused or not reached."""
from gate import rested
from shared import certificates

FATES = ("left_out", "not_reached", "refused", "done")


class Names:
    """The names of a script, and the components of a configuration that each has."""

    def __init__(self, script):
        self.script = script
        self.lines, self.contexts, self.ephemerals = script["lines"], script.get("contexts", []), script.get("ephemerals", [])
        self.noisy = {each["name"] for each in script.get("signals", []) if each.get("list")}
        self.states = {state["name"]: state for state in script["state"]}

    def key(self, name, part):
        """The path of a component of a line or an ephemeral."""
        return f"{'lines' if name in self.lines else 'ephemerals'}.{name}.{part}"

    def standing(self, values, context):
        """The lines and ephemerals that stand in a context."""
        return [name for name in [*self.lines, *self.ephemerals] if values[self.key(name, "at")] == context]

    def bound(self, values):
        """The names that are bound."""
        contexts = {name for name in self.contexts if values[f"contexts.{name}"] != "free"}
        return contexts | {name for name in self.ephemerals if values[self.key(name, "at")] != "absent"}


class Command:
    """A command: its word, its context and its terminations without the sign of what is created, its settings, and the names that it uses and creates."""

    def __init__(self, names, text):
        self.word, context, first, *rest = text.split(" ")
        self.context, self.first = context.removeprefix("$"), first.removeprefix("$")
        self.creates = {name.removeprefix("$") for name in (context, first) if name.startswith("$")}
        self.second, self.topology = rest if self.word == "topology" else (None, None)
        self.settings = dict(option.split("=") for option in rest) if self.word != "topology" else {}
        own = {*names.contexts, *names.ephemerals}
        self.uses = ({self.context, self.first, self.second, self.settings.get("remote")} & own) - self.creates

    def is_legal(self, names, values):
        """Whether the gateway has no ground of its own to refuse it."""
        is_there = self.context == "-" or self.context in self.creates or values[f"contexts.{self.context}"] == "live"
        remote = self.settings.get("remote", "none")
        is_set = remote == "none" or values[names.key(remote, "at")] != "absent"
        if not is_there or not is_set or self.first == "*":
            return is_there and is_set
        at = values[names.key(self.first, "at")]
        if self.word == "add":
            return self.first in self.creates or at == "-"
        if self.word == "move":
            return at not in ("-", "absent", self.context)
        both = self.word != "topology" or values[names.key(self.second, "at")] == self.context
        return at == self.context and both


def without(names, values, gone):
    """The configuration without these in their context."""
    for name in gone:
        kept = {"at": "-", "mode": "Inactive", "events": "none", "plays": "no"} if name in names.lines else {"at": "absent", "mode": "Inactive", "remote": "none"}
        values |= {names.key(name, part): value for part, value in kept.items()}
    for name in (name for name in names.ephemerals if values[names.key(name, "remote")] in gone):
        values[names.key(name, "remote")] = "gone"
    return uncut(values, gone)


def uncut(values, gone):
    """The configuration where nothing of these is cut."""
    return {path: "no" if path.startswith("cuts.") and {*path.removeprefix("cuts.").split(">")} & {*gone} else value for path, value in values.items()}


def settled(names, values):
    """The configuration with its contexts as those that stand in them make them."""
    for name in (name for name in names.contexts if values[f"contexts.{name}"] != "free"):
        values[f"contexts.{name}"] = "live" if names.standing(values, name) else "stale"
    return values


def with_settings(names, command, values):
    """The configuration with what a command sets on its termination."""
    for key, value in command.settings.items():
        part = "plays" if key == "signals" else key
        values[names.key(command.first, part)] = ("may" if value in names.noisy else "no") if key == "signals" else value
    return values


def after(names, command, values):
    """The configuration after a command that is legal."""
    values = dict(values)
    if command.word == "topology":
        one, other = command.first, command.second
        values[f"cuts.{one}>{other}"] = "yes" if command.topology == "isolate" else "no"
        values[f"cuts.{other}>{one}"] = "no" if command.topology == "bothway" else "yes"
        return values
    if command.word == "subtract":
        is_all = command.first == "*"
        values = without(names, values, names.standing(values, command.context) if is_all else [command.first])
        return settled(names, values | ({f"contexts.{command.context}": "free"} if is_all else {}))
    if command.word in ("add", "move"):
        values = uncut(values, [command.first]) if command.word == "move" else values
        values |= {names.key(command.first, "at"): command.context, f"contexts.{command.context}": "live"}
        values = settled(names, values)
    return with_settings(names, command, values)


def fates(names, values, state):
    """What becomes of each command as the request of a state is sent in a configuration."""
    bound, is_reached = names.bound(values), True
    for command in (Command(names, text) for text in state.get("do", [])):
        if not command.uses <= bound:
            yield "left_out"
            continue
        bound = bound | command.creates
        is_legal = is_reached and command.is_legal(names, values)
        yield "done" if is_legal else "refused" if is_reached else "not_reached"
        values, is_reached = after(names, command, values) if is_legal else values, is_legal


def arrows(names):
    """The ways into states: what names each, and which link a call has that takes it, and of a note which line and kind."""
    for state in names.script["state"]:
        yield from ({"from": state["name"], "by": by, "to": state[by]} for by in ("ok", "fault") if by in state)
        for line, kinds in state.get("on", {}).items():
            yield from ({"from": state["name"], "by": "note", "line": line, "note_kind": kind, "to": to} for kind, to in kinds.items())
        yield from ({"from": state["name"], "by": "timer", "to": state["timer"]} for _ in range("timer" in state))
    yield {"from": None, "by": "restart", "to": names.script["restart"]}


def takes(names, arrow, name, values):
    """Whether a call in a state with a configuration takes an arrow."""
    link = arrow["by"] if arrow["by"] in ("ok", "fault") else "rest"
    is_raised = arrow["by"] != "note" or arrow["note_kind"] in rested.raised(names.script, values, arrow["line"])
    return name == arrow["from"] and values["link"] == link and is_raised


def at_restart(names):
    """The configuration in which a call is that hears of a restart, but for its link."""
    values = {path: default for path, _, _, default in certificates.components(names.script, {})}
    return values | {f"lines.{line}.events": "none" for line in names.lines}


def told(names, arrow, entering):
    """What has to be told of an arrow over which calls enter with these configurations."""
    state = names.states[arrow["to"]]
    found = [[*fates(names, values, state)] for values in entering]
    flags = [{fate: any(each[place] == fate for each in found) for fate in FATES} for place in range(len(state.get("do", [])))]
    is_empty = any(all(fate == "left_out" for fate in each) for each in found)
    return {**arrow, "entered": bool(found), "empty": is_empty, "commands": flags}


def counted(script, entries):
    """What becomes of commands over each arrow, where calls come to the points of these entries and to nothing else."""
    names, points = Names(script), [*rested.points(script, entries)]
    for arrow in arrows(names):
        is_restart = arrow["by"] == "restart"
        yield told(names, arrow, [at_restart(names)] if is_restart else [values for name, values in points if takes(names, arrow, name, values)])


def in_order(found):
    return sorted(found, key=lambda arrow: [str(arrow.get(key)) for key in ("from", "by", "line", "note_kind")])


def wrong(script, entries, page):
    """What is wrong with what is told of arrows; nothing is said where it can't be counted."""
    if "arrows" not in page or not rested.can_count(script, entries, page):
        return
    found = in_order(page["arrows"]), in_order(counted(script, entries))
    yield from (f"{one}, and not {other}" for one, other in zip(*found) if one != other)
    if len(found[0]) != len(found[1]):
        yield f"{len(found[0])} arrows, and not {len(found[1])}"
