"""What is told of a script and a certificate that are read: of a No its diagnosis, with the way of a call there and what may be done; of a yes what is warned
of. The facts are those of `mgexplain`; nothing is decided here. It is installed too, so it knows nothing of this repository."""
from shared import certificates, check_words, scripts, warning_words, way_steps
from shared.door import places
from shared.door.diagnostics import TOP, error, meant, note, warning

# The key of a script that names the state of a configuration which is no point's.
NAMED_BY = {"K1": "start", "K6": "restart"}
LACKING = {
    "K1": "no entry has the configuration in which a call opens",
    "K6": "no entry has the configuration after a restart of the gateway",
}
# Where an entry goes that would have what no entry has.
BEHIND, IN_PLACE = "this entry would have it, behind the last one: {}", "this entry would have it, in the place of entry {}: {}"
# What is said of a note that is swallowed, and meant to be.
MEANT = "state {state}: a call rests in it with a list that raises {word}, which leads nowhere, and its intents say so"
# The rule under which it is told that nobody knows what no call uses.
UNKNOWN = "unknown"


def where(told):
    """The state and the link of a configuration."""
    return f"state {told['state']}, link {certificates.link(told)}"


class Verdict:
    """What is told of a page, with the files that it is about, and the notes of states that are meant to be ignored."""

    def __init__(self, page, script, certificate, ignored):
        self.page, self.script, self.certificate, self.ignored = page, script, certificate, ignored
        self.table = scripts.read(script.text)
        self.parts, self.entries = places.Script(script.text), places.Certificate(certificate.text)

    def in_script(self, place, text):
        """A note on the script."""
        return note(self.script.name, place, text)

    def in_certificate(self, number, text):
        """A note on an entry of the certificate."""
        return note(self.certificate.name, self.entries.entry(number), text)

    # ---- a yes

    def warned(self, told):
        """The warning that is told."""
        says = warning_words.warned(told, self.page, self.table).rstrip(". ")
        if "state" not in told:
            return warning(self.certificate.name, self.entries.entry(told["entry_place"]), told["warning"], f"entry {told['entry_place']}: {says}")
        state, names = told["state"], told.get("names", [])
        if told["warning"] == "arrow_unused":
            place = self.parts.way_out(state, f"{names[0]}.{told['note_kind']}")
        elif told["warning"] == "mark_unneeded":
            place = self.parts.mark(state, names)
        elif "command_place" in told:
            place = self.parts.command(state, told["command_place"])
        else:
            place = self.parts.state(state)
        if (state, word := f"{names[0]}.{told['note_kind']}" if "note_kind" in told else "") in self.ignored:
            return meant(self.script.name, place, told["warning"], MEANT.format(state=state, word=word))
        return warning(self.script.name, place, told["warning"], f"state {state}: {says}")

    def worth(self):
        """The warnings of a yes, in the order of the script and then of the certificate, each with the notes on it."""
        if "warnings" not in self.page:
            return [warning(self.script.name, self.parts.key("start"), UNKNOWN, check_words.MANY.rstrip("."))]
        files = [self.script.name, self.certificate.name]
        groups = [[self.warned(told), *self.shown(told)] for told in self.page["warnings"]]
        return [one for group in sorted(groups, key=lambda group: (files.index(group[0].file), group[0].place)) for one in group]

    def shown(self, told):
        """How a call gets to a configuration from which it is brought to no end, in the state that it is warned of; the facts have one such trace."""
        stuck = self.page.get("ending", {}).get("stuck")
        if told["warning"] == "cannot_end" and stuck and [stuck["opening"], *stuck["moves"]][-1]["state"] == told["state"]:
            yield from self.steps(stuck)

    # ---- a No

    def diagnosis(self):
        """The error: what is broken, where the script says so."""
        obligation, page = self.page["obligation"], self.page
        if "uncovered" in page:
            return error(self.script.name, self.parts.key(NAMED_BY[obligation]), obligation, f"{LACKING[obligation]}: {where(page['uncovered'])}")
        configuration = page["point"]["configuration"]
        state, link = configuration["state"], certificates.link(configuration)
        if "step" in page:
            step = page["step"]
            says = f"the step `{step['step']}` of state {state}, link {link}, leads where no entry is: {check_words.happens(step, link)}"
            return error(self.script.name, self.parts.step(state, link, step["step"]), obligation, says)
        return error(self.script.name, self.parts.state(state), obligation, self.breach(page["breaches"][0]))

    def breach(self, told):
        """What of the point breaks the obligation, in a sentence."""
        state = self.page["point"]["configuration"]["state"]
        lines = check_words.breach({key: value for key, value in told.items() if key != "left_by"}, state)
        return " ".join(map(str.strip, lines)).rstrip(".")

    def breaches(self):
        """What else breaks it, and the command that left each so."""
        state = self.page["point"]["configuration"]["state"]
        for number, told in enumerate(self.page.get("breaches", [])):
            if number:
                yield self.in_script(self.parts.state(state), self.breach(told))
            if "left_by" in told:
                cause = told["left_by"]
                place = self.parts.command(cause["state"], cause["command_place"])
                yield self.in_script(place, f"command {cause['command_place']} of state {cause['state']} left it so: `{cause['command']}`")

    def way(self):
        """The way of a call to the point, step by step; or why none is told."""
        told, number = self.page["way"], self.page["point"]["entry_place"]
        if not told.get("comes"):
            yield self.in_certificate(number, " ".join(map(str.strip, check_words.way(self.page, self.table))))
            return
        yield from self.steps(told)

    def steps(self, told):
        """A trace from the opening, step by step, each at the arrow or the command that is taken."""
        state, link = told["opening"]["state"], certificates.link(told["opening"])
        yield self.in_script(self.parts.key("start"), f"a call opens in state {state}, link {link}")
        for count, move in enumerate(way_steps.moves(self.table, told), 1):
            yield self.in_script(self.parts.step(state, link, move.words), f"step {count}: {check_words.made(move).strip()}")
            state, link = move.state, move.link

    def lacking(self):
        """The entry that comes nearest to having what no entry has, and the one that would have it."""
        if "nearest" in self.page:
            nearest = self.page["nearest"]
            lacks = ", ".join(f"{each['component']} {each['value']}" for each in nearest["lacks"])
            yield self.in_certificate(nearest["entry_place"], f"entry {nearest['entry_place']} comes nearest to having it, and lacks {lacks}")
        if "entry" in self.page:
            row = certificates.row(certificates.of_facts(self.table, self.page.get("alone", self.page["entry"])))
            takes_place = "widens" in self.page and "alone" not in self.page
            yield note(self.certificate.name, TOP, IN_PLACE.format(self.page["widens"], row) if takes_place else BEHIND.format(row))

    def refuted(self):
        """What is told of a No: the error, and the notes on it."""
        yield self.diagnosis()
        obligation = self.page["obligation"]
        if "point" in self.page:
            point = self.page["point"]
            yield self.in_certificate(point["entry_place"], f"point {point['point_number']} of entry {point['entry_place']}: {where(point['configuration'])}")
            yield from self.breaches()
            yield from self.way()
        if "step" in self.page:
            yield self.in_script(self.parts.state(self.page["step"]["result"]["state"]), f"it leads to {where(self.page['step']['result'])}")
        yield from self.lacking()
        if obligation in check_words.ADVICE:
            state = self.page["point"]["configuration"]["state"]
            yield self.in_script(self.parts.state(state), check_words.ADVICE[obligation])


def diagnostics(page, script, certificate, ignored=frozenset()):
    """What is told of a page on a script and a certificate that are read; what the notes raise that are ignored is no warning."""
    told = Verdict(page, script, certificate, ignored)
    return [*(told.refuted() if "obligation" in page else told.worth())]
