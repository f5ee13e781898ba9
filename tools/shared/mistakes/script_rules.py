"""The rules of a script whose keys and values are of the format's forms: names, what stands twice, names that aren't declared, digit maps, and what each
state has to have or can't have. What can't be read is passed over, so that each of these mistakes is one whatever becomes of that. It is installed too, so it
knows nothing of this repository."""
from shared.mistakes import digit_maps, words
from shared.mistakes.nodes import LIST
from shared.mistakes.script_shape import TABLES, WHAT
from shared.mistakes.words import FORM, is_name, shown

# Names that stand in one name space.
SPACES = (("lines", "contexts", "ephemerals"), ("events",), ("signals",), ("maps",), ("state",))
MOST = {"lines": 4, "contexts": 4, "ephemerals": 4, "events": 16, "signals": 16, "maps": 16, "state": 64}
MOST_COMMANDS = 16
# The words that may stand where a name of a sort is asked for, whatever the script declares.
OWN = {"events": ("none", "armed"), "signals": ("none",), "remote": ("none",)}
# What the options of a command name.
NAMED = {"events": "events", "signals": "signals", "remote": "ephemerals"}
# Where a state leads to, but by notes.
TARGETS = ("ok", "fault", "timer")


class Rules:
    """The look at what a script says."""

    def __init__(self, findings, script):
        self.findings, self.script, self.add = findings, script, findings.add

    def inside(self, name):
        """The byte of a name."""
        return self.findings.inside(name.node, name.before)

    def twice(self, found, says):
        """Adds each of some words, given with its path and its byte, that stands behind an equal one."""
        seen = set()
        for path, at, word in found:
            if word in seen:
                self.add("Duplicate", at, path, says.format(shown(word)), word)
            seen.add(word)

    def name(self, path, at, text):
        """The form of a name that is declared."""
        if text in words.RESERVED:
            self.add("BadName", at, path, "this name is reserved", text)
        elif not is_name(text):
            self.add("BadName", at, path, FORM, text)

    def names(self):
        """The names that are declared."""
        for space in SPACES:
            self.name_space([(sort, name) for sort in space for name in self.script.names[sort]])

    def name_space(self, named):
        """The names of one name space."""
        found = [(f"the {WHAT[sort]} {shown(name.text)}", self.inside(name), name.text) for sort, name in named]
        for one in found:
            self.name(*one)
        self.twice(found, "the name is declared twice")

    def sizes(self):
        """How many names of each sort there are."""
        for sort, most in MOST.items():
            at, node = self.script.top.get(sort, (0, None))
            if node is not None and node.kind == LIST and len(node.value) > most:
                place = at if sort in ("lines", "contexts", "ephemerals") else node.value[most].at
                self.add("TooMany", place, "the script", f"it has {len(node.value)} {WHAT[sort]}s, and {most} at most may be there")

    def known(self, path, at, text, sort, hint=""):
        """Adds a name that isn't declared as what its place asks for."""
        own, asked = OWN.get(sort, ()), NAMED.get(sort, sort)
        if text not in own and not self.script.knows(asked, text):
            self.add("Unknown", at, path, f"no {WHAT[asked]} {shown(text)} is declared{hint}", text, [*own, *self.script.texts(asked)])

    def state_named(self, path, name):
        """A state that another one leads to."""
        if name is not None:
            self.known(path, self.inside(name), name.text, "state")

    def ends(self):
        """The states at `start` and `restart`."""
        path = "the top of the script"
        for key, fault in (("start", "NoStart"), ("restart", "NoRestart")):
            name = self.script.named[key]
            if key not in self.script.top:
                self.add(fault, 0, path, f"the key `{key}` is missing")
            elif name is not None and not self.script.knows("state", name.text):
                says = f"`{key}` names no state: there is no {shown(name.text)}"
                self.add(fault, self.inside(name), path, says, name.text, self.script.texts("state"))

    def events(self, items):
        """The items of an events list."""
        self.twice([(path, self.findings.inside(node, 0), event) for path, node, event, _ in items if event], "{} stands twice in the list")
        for path, node, named in [(path, node, named) for path, node, _, named in items if named is not None]:
            self.known(path, self.findings.inside(node, named.before), named.name, "maps")

    def signals(self, items):
        """The signals of a signals list."""
        self.twice([(path, self.findings.inside(node, 0), text) for path, node, text in items if text in words.SIGNALS], "{} stands twice in the list")

    def map(self, path, text):
        """The text of a digit map."""
        for before, says in digit_maps.map_faults(text.text.encode()):
            self.add("BadMap", self.findings.inside(text.node, before), path, says, text.text)

    def state(self, held):
        """A state."""
        of = [(path, node, command) for path, node, command in held.parts["do"] if command is not None]
        for one in of:
            self.command(*one)
        self.created(of)
        self.subtracted(of)
        self.talk(held)
        self.leads(held)
        self.shape(held)

    def tables(self, sort):
        """The tables of an array."""
        look = {"events": self.events, "signals": self.signals}.get(sort)
        for held in self.script.tables[sort]:
            if look:
                look(held.parts)
            elif sort == "state":
                self.state(held)
            elif held.parts is not None:
                self.map(held.path, held.parts)

    def command(self, path, node, command):
        """The names that a command uses."""
        if command.context:
            self.known(path, self.findings.inside(node, command.context.before), command.context.name, "contexts")
        for named in filter(None, command.terminations):
            self.termination(path, self.findings.inside(node, named.before), named.name, command)
        self.options(path, node, command.options)
        if command.verb in ("modify", "move") and command.terminations and command.terminations[0]:
            self.suits(path, node, command)
        if command.verb == "topology" and len(command.terminations) == 2 and None not in command.terminations:
            self.twice([(path, self.findings.inside(node, name.before), name.name) for name in command.terminations], "a topology has {} twice")

    def options(self, path, node, options):
        """The names that the options of a command have."""
        for key, named in options.items():
            if key != "mode":
                self.known(path, self.findings.inside(node, named.before), named.name, key)

    def termination(self, path, at, text, command):
        """A termination that a command names."""
        is_line, is_ephemeral = (self.script.declares(sort, text) for sort in ("lines", "ephemerals"))
        if command.verb == "add" and command.is_own:
            self.known(path, at, text, "ephemerals", f"; {shown(text)} is a line, and has no `$`" if is_line else "")
        elif command.verb == "add":
            self.known(path, at, text, "lines", f"; `${text}` creates the ephemeral" if is_ephemeral else "")
        elif not self.script.knows("lines", text) and not self.script.knows("ephemerals", text):
            known = [*self.script.texts("lines"), *self.script.texts("ephemerals")]
            self.add("Unknown", at, path, f"no line or ephemeral {shown(text)} is declared", text, known)

    def suits(self, path, node, command):
        """Whether the options of a Modify or a Move are of what it names. That some are of a line and some of an ephemeral is told as a bad text."""
        if "remote" in command.options and ("events" in command.options or "signals" in command.options):
            return
        text = command.terminations[0].name
        sort = next((sort for sort in ("lines", "ephemerals") if self.script.declares(sort, text)), None)
        for key, named in command.options.items():
            at = self.findings.inside(node, named.before - len(key) - 1)
            if key == "remote" and sort == "lines":
                self.add("Unknown", at, path, f"`remote` asks for an ephemeral, and {shown(text)} is a line", key)
            elif key in ("events", "signals") and sort == "ephemerals":
                self.add("Unknown", at, path, f"`{key}` asks for a line, and {shown(text)} is an ephemeral", key)

    def created(self, of):
        """What the commands of a state create twice."""
        found = [(path, node, command.context) for path, node, command in of if command.creates and command.context]
        found += [(path, node, command.terminations[0]) for path, node, command in of if command.is_own and command.terminations[0]]
        placed = [(path, self.findings.inside(node, named.before), named.name) for path, node, named in found]
        self.twice(sorted(placed, key=lambda one: one[1]), "{} is created twice")

    def subtracted(self, of):
        """What the commands of a state create and subtract."""
        contexts = {command.context.name for _, _, command in of if command.creates and command.context}
        ephemerals = {command.terminations[0].name for _, _, command in of if command.is_own and command.terminations[0]}
        for path, node, command in of:
            named = command.context if command.is_all else next(iter(command.terminations), None) if command.verb == "subtract" else None
            if named and named.name in (contexts if command.is_all else ephemerals):
                says = f"the state creates {shown(named.name)} and subtracts {'all of ' if command.is_all else ''}it"
                self.add("MadeAndSubtracted", self.findings.inside(node, named.before), path, says, named.name)

    def talk(self, held):
        """The pairs of a state."""
        for path, node, lines in held.parts["talk"]:
            self.pair([(path, self.findings.inside(node, named.before), named.name) for named in lines])

    def pair(self, found):
        """The lines of a pair, each with its path and its byte."""
        for one in found:
            self.known(*one, "lines")
        self.twice(found, "a pair has the line {} twice")

    def leads(self, held):
        """The states that a state leads to, and the lines whose notes do."""
        seen = set()
        for path, line, at, target in held.parts["on"]:
            if line and line not in seen:
                self.known(path, at, line, "lines")
            seen.add(line)
            self.state_named(path, target)
        self.state_named(f"{held.path}: `ok`", held.parts["ok"])
        self.state_named(f"{held.path}: `fault`", held.parts["fault"])
        self.state_named(f"{held.path}: `timer`", held.parts["timer"])

    def shape(self, held):
        """What a state has to have, and what it can't have."""
        at, do = held.keys.get("do", (0, None))
        count = len(do.value) if do is not None and do.kind == LIST else 0
        if count and "fault" not in held.keys:
            self.add("NoFault", at, held.path, "it has commands, so it needs the key `fault`", "do")
        for key in ("ok", "fault") if not count and (do is None or do.kind == LIST) else ():
            if key in held.keys:
                self.add("OkWithoutActions", held.keys[key][0], held.path, f"it has no commands, so it can't have `{key}`", key)
        if count > MOST_COMMANDS:
            self.add("TooMany", at, held.path, f"it has {count} commands, and {MOST_COMMANDS} at most may be there", "do")
        has = [key for key in TARGETS if key in held.keys] + (["on"] if held.parts["on"] else [])
        if held.parts["end"] and (count or has):
            said = words.listed((["do"] if count else []) + has)
            self.add("EndWithTransitions", held.keys["end"][0], held.path, f"an end state has no commands and leads nowhere, and this one has {said}", "end")

    def whole(self):
        """Looks at all of it."""
        self.names()
        self.sizes()
        self.ends()
        for sort in TABLES:
            self.tables(sort)
