"""What an author means a service to do, state by state, asked of the facts that `mgexplain` tells of a yes: who hears whom where calls rest, which notes
lead on, which states are reached, whether each command is done. What doesn't hold is told at its place in the file, with what is so instead. Nothing is
decided here but by these facts. It is installed too, so it knows nothing of this repository."""
from shared import coverage_words, scripts
from shared.door import intent_telephones, intent_ways, places
from shared.door.diagnostics import error, note

KEY = "intents"
HEARS, SILENT, AWAITS, IGNORES, REACHES, ENDS, DOES_ALL = "hears", "silent", "awaits", "ignores", "reaches", "ends", "does_all"
RINGS, NOBODY_RINGS, TONES = OF_TELEPHONES = "rings", "nobody_rings", "tones"
BOTH_WAYS, ONE_WAY = "-", ">"
# What is said of a pair by the part of the configurations at rest in which the one hears the other.
LACKS = {"some": "{to} doesn't hear {of} in some calls that rest in it", "none": "{to} hears {of} in no call that rests in it"}
HAS = {"some": "{to} hears {of} in some calls that rest in it", "all": "{to} hears {of} in each call that rests in it"}
NO_REST = "no call rests in it"
NO_TELEPHONES = "whether it holds isn't told: this mgexplain tells too little of telephones"
UNTOLD = "whether it holds isn't told: calls come to a million configurations or more"


def pairs(words):
    """The pairs that texts name, each who is heard and who hears, with the place of its text: `a-b` is both ways, `a>b` is that b hears a."""
    for number, word in enumerate(words):
        one, other = word.replace(ONE_WAY, BOTH_WAYS).split(BOTH_WAYS)
        yield (one, other), number
        if BOTH_WAYS in word:
            yield (other, one), number


def texts(value):
    """The texts of a list, or of one text that stands for a list of one."""
    return [value] if isinstance(value, str) else value


class Places:
    """Where the intents of a file and the parts of its script stand: a callable that gives the file's name and the place of a state's intent, of a key of it
    and of a text of that."""

    def __init__(self, script, file):
        self.script, self.name = script, file.name
        self.parts, self.text = places.Script(script.text), places.Document(file.text)

    def __call__(self, *path):
        return self.name, self.text.at(KEY, *path)


class State:
    """What the facts tell of a state."""

    def __init__(self, page, script, name):
        self.name, self.page = name, page
        self.script = next(state for state in script["state"] if state["name"] == name)
        self.told = next((told for told in page.get("rests", []) if told["state"] == name), None)
        self.ends = {state["name"] for state in script["state"] if state.get("end", False)}
        self.start = script["start"]

    def taken(self):
        """The arrows that calls go over, but for what restarts lead to."""
        return [arrow for arrow in self.page.get("arrows", []) if arrow["entered"] and arrow["by"] != "restart"]

    def entering(self):
        """The arrows over which calls come to it."""
        return [arrow for arrow in self.page.get("arrows", []) if arrow["entered"] and arrow["to"] == self.name]

    def reached(self):
        """The states to which such arrows lead from here, one behind the other, in the order in which they come."""
        found = [self.name]
        for state in found:
            found += dict.fromkeys(arrow["to"] for arrow in self.taken() if arrow["from"] == state and arrow["to"] not in found)
        targets = {arrow["to"] for arrow in self.taken() if arrow["from"] in found}
        return [state for state in found if state in targets]


class Asked:
    """The intent of one state, asked of the facts."""

    def __init__(self, page, script, where, name, intent):
        self.page, self.where, self.name, self.intent = page, where, name, intent
        self.state = State(page, script, name)

    def broken(self, says, key, *path):
        """The error that an intent doesn't hold."""
        file, place = self.where(self.name, key, *path)
        return error(file, place, f"intent {key}", f"state `{self.name}`: {says}")

    def instead(self, key, says):
        """A note on what is so instead."""
        file, place = self.where(self.name, key)
        return note(file, place, says)

    # ---- who hears whom

    def hearing(self, key, named):
        """What doesn't hold of who hears whom: of the pairs that are named, and of all others."""
        wanted = dict(pairs(named))
        for told in self.state.told["hears"]:
            pair = (told["from"], told["to"])
            if pair in wanted and told["in"] in LACKS:
                yield self.broken(LACKS[told["in"]].format(of=told["from"], to=told["to"]), key, wanted[pair])
            elif pair not in wanted and told["in"] in HAS:
                meant = "nobody is to hear another" if key == SILENT else f"`{HEARS}` doesn't name it"
                yield self.broken(f"{HAS[told['in']].format(of=told['from'], to=told['to'])}, and {meant}", key)

    def of_hearing(self, key, named):
        """The same with what is so instead, and how calls come there."""
        if found := [*self.hearing(key, named)]:
            yield from found
            yield self.instead(key, f"so it is: {'; '.join(map(str.strip, coverage_words.hearing(self.state.told)))}")
            yield from map(self.comes, self.state.entering())
            yield from self.tried(key, named)

    def tried(self, key, named):
        """The note with a scenario that tries it: over the first arrow on which a command isn't done, else over the first."""
        arrows = self.page.get("arrows", [])
        told = [intent_ways.scenario(arrows, self.state.start, one, named) for one in sorted(self.state.entering(), key=lambda one: not self.fates(one))]
        yield from (self.instead(key, f"a scenario that tries it: {steps}") for steps in [one for one in told if one is not None][:1])

    def comes(self, arrow):
        """The note on an arrow over which calls come, at its place in the script, with what of its commands isn't done."""
        words = self.fates(arrow)
        return self.on_arrow(arrow, f"calls come to `{self.name}` {coverage_words.arrow(arrow)}{': ' if words else ''}{'; '.join(words)}")

    def on_arrow(self, arrow, says):
        """A note at an arrow in the script."""
        parts = self.where.parts
        if arrow["by"] == "restart":
            return note(self.where.script.name, parts.key("restart"), says)
        word = f"{arrow['line']}.{arrow['note_kind']}" if arrow["by"] == "note" else arrow["by"]
        return note(self.where.script.name, parts.way_out(arrow["from"], word), says)

    # ---- notes

    def note_of(self, word):
        """What is told of a note that a text names; none where no list raises it."""
        return next((told for told in self.state.told["notes"] if f"{told['on_line']}.{told['note_kind']}" == word), None)

    def target(self, word):
        """Where the script says that a note leads; none where it doesn't."""
        line, _, kind = word.partition(".")
        return self.state.script.get("on", {}).get(line, {}).get(kind)

    def of_awaits(self, words):
        """Each note that has to lead on, and doesn't."""
        for number, word in enumerate(words):
            told, target = self.note_of(word), self.target(word)
            if told is None and target is not None:
                yield self.broken(f"{word} leads to `{target}`, and no call rests in it with a list that raises it", AWAITS, number)
            elif told is None or not told["awaited"]:
                lists = "no call rests in it with a list that raises it" if told is None else "a call rests in it with a list that raises it"
                yield self.broken(f"{word} leads nowhere, and {lists}", AWAITS, number)

    def of_ignores(self, words):
        """Each note that leads nowhere and isn't named, and each that is named and leads on."""
        for told in self.state.told["notes"]:
            word = f"{told['on_line']}.{told['note_kind']}"
            if not told["awaited"] and word not in words:
                yield self.broken(f"a call rests in it with a list that raises {word}, which leads nowhere", IGNORES)
            elif told["awaited"] and word in words:
                yield self.broken(f"{word} leads to `{self.target(word)}`", IGNORES, words.index(word))

    # ---- ways and commands

    def of_reaches(self, names):
        """Each state that isn't reached."""
        reached = self.state.reached()
        if lacking := [(number, name) for number, name in enumerate(names) if name not in reached]:
            yield from (self.broken(f"no call comes from here to `{name}`", REACHES, number) for number, name in lacking)
            yield self.to_here(REACHES, reached)

    def of_ends(self):
        """Whether an end is reached."""
        reached = self.state.reached()
        if not self.state.ends & {self.name, *reached}:
            yield self.broken("no call comes from here to an end", ENDS)
            yield self.to_here(ENDS, reached)

    def to_here(self, key, reached):
        """The note on the states that are reached."""
        return self.instead(key, f"calls come from here to {', '.join(f'`{name}`' for name in reached)}" if reached else "no call goes on from here")

    def fates(self, arrow):
        """What becomes of the commands that aren't done, or not in each call, over an arrow."""
        commands = self.state.script.get("do", [])
        undone = [flags["left_out"] or flags["not_reached"] or flags["refused"] for flags in arrow["commands"]]
        told = enumerate(zip(commands, arrow["commands"], undone))
        return [f"command {number}, `{command}`, is {coverage_words.fates(flags).lower()}" for number, (command, flags, is_undone) in told if is_undone]

    def of_commands(self):
        """Each way in on which a command isn't done, or not in each call; that no call comes here."""
        entering = self.state.entering()
        if not entering and self.name != self.state.start:
            yield self.broken("no call comes to it", DOES_ALL)
        for arrow in entering:
            if words := self.fates(arrow):
                yield self.broken(f"entered {coverage_words.arrow(arrow)}, {'; '.join(words)}", DOES_ALL)
                yield self.on_arrow(arrow, f"this leads to `{self.name}`")

    # ---- telephones

    def of_telephones(self, key):
        """What doesn't hold of what plays, with what is so instead."""
        told, value = self.state.told, self.intent[key]
        if not told["telephones"]:
            return [] if key == NOBODY_RINGS else [self.broken(NO_REST, key)]
        if key != NOBODY_RINGS and not intent_telephones.are_played(told["telephones"]):
            return [self.broken(NO_TELEPHONES, key)]
        if key == TONES:
            found = [self.broken(says, key, line) for line, says in intent_telephones.playing(told["telephones"], value)]
        else:
            lines = [] if key == NOBODY_RINGS else value
            found = [self.broken(says, key, *place) for says, *place in intent_telephones.ringing(told["telephones"], lines)]
        instead = "; ".join(coverage_words.telephones(told, self.state.script)) or coverage_words.QUIET
        return [*found, self.instead(key, f"so it is: {instead}")] if found else []

    # ---- all of it

    def at_rest(self, key):
        """What doesn't hold of a key that is about where calls rest."""
        value = self.intent[key]
        if not self.state.told["at_rest"]:
            return [self.broken(NO_REST, key)]
        if key in (HEARS, SILENT):
            return self.of_hearing(key, value if key == HEARS else [])
        return (self.of_awaits if key == AWAITS else self.of_ignores)(value)

    def of_key(self, key):
        """What doesn't hold of a key."""
        if self.state.told is None:
            return [self.broken(UNTOLD, key)]
        if key in OF_TELEPHONES:
            return self.of_telephones(key) if "telephones" in self.state.told else [self.broken(NO_TELEPHONES, key)]
        if key in (HEARS, SILENT, AWAITS, IGNORES):
            return self.at_rest(key)
        return self.of_reaches(texts(self.intent[key])) if key == REACHES else self.of_ends() if key == ENDS else self.of_commands()

    def answers(self):
        """What doesn't hold of each key, as they stand."""
        return [[*self.of_key(key)] for key in self.intent]


def answers(page, intents, where):
    """For each key of each state of the intents what of it doesn't hold by the facts of a yes: none where it does. The intents have no mistakes."""
    script = scripts.read(where.script.text)
    return [answer for name, intent in intents.items() for answer in Asked(page, script, where, name, intent).answers()]


def told(page, intents, where):
    """What of the intents, a table of states with a table of keys each, doesn't hold by the facts of a yes: errors at the places that `where` gives, each with
    its notes. The intents have no mistakes."""
    return [one for answer in answers(page, intents, where) for one in answer]
