"""Inputs of `mgcall check` that are answered `yes` and hold many points in few bytes, each with as many steps as a state can have: those of `script`, and of
`resting_script` at rest, differ in what no command asks for; those of `Placed` differ in places."""
import itertools
import json

from shared.certificates import ENTRIES, MODES, PRODUCT

STATES, COMMANDS = 63, 16
# Of so many lines: how many events lists a line may have so that an entry has at most its 65,536 points, and whether one stands for one mode of the first line.
SHAPES = {2: (18, False), 3: (8, True), 4: (2, False)}


def lists(lines):
    """The events lists that an entry's lines may have, of a script of so many lines: the two that are always there, and own ones."""
    return ["none", "armed", *(f"l{n}" for n in range(16))][: SHAPES[lines][0]]


def place(name, has_contexts):
    """Where a line stands: in the null context; or the first in a context of its own, and the others in another one."""
    return ("c" if name == "a" else "d") if has_contexts else "-"


def script(lines, has_contexts, states):
    """States of sixteen commands each, every one of which gives the first line another mode and one list or the other; no two lines are marked, so that each
    point is asked whether they are joined. With contexts there are two ephemerals too, which name each other."""
    names = "abgh"[:lines]
    text = [f"lines = {json.dumps(list(names))}", 'start = "idle"', 'restart = "idle"']
    if has_contexts:
        text += ['contexts = ["c", "d"]', 'ephemerals = ["e", "f"]']
    for name in lists(lines)[2:]:
        text += ["[[events]]", f'name = "{name}"', 'list = ["al/on", "al/fl"]']
    text += ["[[signals]]", 'name = "ring"', 'list = ["al/ri"]', "[[state]]", 'name = "idle"']
    own = lists(lines)
    for state in range(states):
        following = f"s{(state + 1) % states}"
        commands = [
            f"modify {place('a', has_contexts)} a mode={MODES[n % 4]} events={own[n % len(own)]} signals={('none', 'ring')[n % 2]}" for n in range(COMMANDS)
        ]
        text += ["[[state]]", f'name = "s{state}"', f"do = {json.dumps(commands)}", f'ok = "{following}"', f'fault = "{following}"']
        pairs = [f"{one}-{other}" for one, other in itertools.combinations(names, 2) if place(one, has_contexts) == place(other, has_contexts) != "-"]
        text += [f"talk = {json.dumps(pairs)}"] if pairs else []
    return "\n".join(text) + "\n"


def entry(lines, has_contexts, state, link, modes, is_wide=True):
    """An entry of a state at this link: the first line with these modes; where it is wide, each line with every list and signal, and the others with every
    mode."""
    found = {"state": state, "link": [link], "lines": {}}
    for name in "abgh"[:lines]:
        own = {"at": [place(name, has_contexts)], "mode": modes if name == "a" else MODES if is_wide else MODES[:1]}
        found["lines"][name] = {**own, "events": lists(lines), "plays": ["no", "may"]} if is_wide else own
    if has_contexts:
        found["contexts"] = {"c": ["live"], "d": ["live"]}
        found["ephemerals"] = {name: {"at": [at], "remote": [other]} for name, at, other in (("e", "c", "f"), ("f", "d", "e"))}
    return found


def in_parts(whole):
    """A wide entry in four that have its points between them: by halves of the second line's modes, and by its signals. So none has all that a step makes of
    it."""
    for modes, plays in itertools.product((MODES[:2], MODES[2:]), ("no", "may")):
        yield {**whole, "lines": {**whole["lines"], "b": {**whole["lines"]["b"], "mode": modes, "plays": [plays]}}}


def results_of(lines, has_contexts, state, is_parted):
    """The wide entries of a state for results, one for each mode of the first line, so that each command leads to another one than that before it."""
    found = [entry(lines, has_contexts, state, link, [mode]) for link in ("ok", "fault") for mode in MODES]
    return [part for whole in found for part in in_parts(whole)] if is_parted else found


def of_state(lines, has_contexts, state, wide, is_far, is_parted=False):
    """The 256 entries of a state: those for results, so many wide ones for what is sent, and one narrow one again and again. Far: those for results come
    last. Parted: each of them is in four parts."""
    results = results_of(lines, has_contexts, state, is_parted)
    modes = [[mode] for mode in MODES] if SHAPES[lines][1] else [MODES]
    sent = [entry(lines, has_contexts, state, "sent", modes[n % len(modes)]) for n in range(max(wide, len(modes)))]
    narrow = [entry(lines, has_contexts, state, "sent", MODES[:1], False)] * (ENTRIES - len(results) - len(sent))
    return [*narrow, *sent, *results] if is_far else [*results, *sent, *narrow]


def certificate(lines, has_contexts, states, wide, is_far, is_parted=False):
    """A certificate for such a script, with so many wide entries for what is sent in each state."""
    armed = {name: {"events": ["none", "armed"]} for name in "abgh"[:lines]}
    entries = [{"state": "idle", "link": ["ok", "rest"], "lines": armed}]
    for state in range(states):
        entries += of_state(lines, has_contexts, f"s{state}", wide, is_far, is_parted)
    return json.dumps({"version": 2, "entries": entries}, separators=(",", ":")) + "\n"


def points_of(lines):
    """How many points a wide entry for what is sent has."""
    count, is_split = SHAPES[lines]
    found = (len(MODES) * count * 2) ** lines // (len(MODES) if is_split else 1)
    assert found <= PRODUCT
    return found


def most(is_parted=False):
    """How many wide entries for what is sent the limits allow in all states, beside those for results."""
    return STATES * (ENTRIES - 2 * len(MODES) * (4 if is_parted else 1))


# ---- calls at rest

# Of so many lines: how many events lists, modes and signals a line may have so that an entry has at most its 65,536 points.
RESTING = {2: (18, 4, 2), 3: (10, 4, 1), 4: (16, 1, 1)}
KINDS = ("on", "of", "fl", "full", "part")
# The items of a list that raises each note that there is, and the digit map that it takes.
EACH_ITEM, NUMBER = json.dumps(["al/on", "al/of", "al/fl", "dd/ce=number"]), ["[[maps]]", 'name = "number"', 'map = "1xx"']


def led_on(following, lines):
    """What leads a call at rest on: each note of each line, and the timer."""
    return [f'timer = "{following}"', *(f'on.{name}.{kind} = "{following}"' for name in lines for kind in KINDS)]


def resting_lists(lines):
    return ["none", "armed", *(f"l{n}" for n in range(16))][: RESTING[lines][0]]


def resting_script(lines, states):
    """States with one command each, in which each own list of a line raises every note."""
    names = "abgh"[:lines]
    text = [f"lines = {json.dumps(list(names))}", 'start = "idle"', 'restart = "idle"', *NUMBER]
    for name in resting_lists(lines)[2:]:
        text += ["[[events]]", f'name = "{name}"', f"list = {EACH_ITEM}"]
    text += ["[[signals]]", 'name = "ring"', 'list = ["al/ri"]', "[[state]]", 'name = "idle"']
    for state in range(states):
        following = f"s{(state + 1) % states}"
        text += ["[[state]]", f'name = "s{state}"', 'do = ["modify - a mode=Inactive"]', f'ok = "{following}"', f'fault = "{following}"']
        text += led_on(following, names)
    return "\n".join(text) + "\n"


def resting_certificate(lines, states, wide):
    """A certificate for such a script, with so many entries for calls at rest in each state, behind those for results."""
    _, modes, plays = RESTING[lines]
    own = {"mode": MODES[:modes], "events": resting_lists(lines), "plays": ["no", "may"][:plays]}
    entries = [{"state": "idle", "link": ["ok", "rest"], "lines": {name: {"events": ["none", "armed"]} for name in "abgh"[:lines]}}]
    for state in range(states):
        links = ["sent", "ok", "fault", *["rest"] * wide]
        entries += [{"state": f"s{state}", "link": [link], "lines": {name: own for name in "abgh"[:lines]}} for link in links]
    return json.dumps({"version": 2, "entries": entries}, separators=(",", ":")) + "\n"


def resting_points(lines):
    """How many points such an entry has."""
    count, modes, plays = RESTING[lines]
    found = (count * modes * plays) ** lines
    assert found <= PRODUCT
    return found


# How many such entries the limits allow in all states, beside those for results.
MOST_RESTING = STATES * (ENTRIES - 3)

# ---- points that differ in places

CONTEXTS, OTHERS, EPHEMERALS = "cdef", "bgh", "wxyz"
ALWAYS = ["Inactive"]


def occupied(choices):
    """In how many ways terminations stand so that each of the last three contexts has somebody: of each termination how many choices it has, in four contexts or
    outside of them."""
    found = 0
    for empty in range(4):
        ways = 1
        for count in choices:
            ways *= count - empty
        found += (-1) ** empty * (1, 3, 3, 1)[empty] * ways
    return found


class Placed:
    """A kind of inputs whose points differ in places: four lines and four ephemerals in four contexts, each of which exists. The first line stands in its own
    context, and its mode tells the entries of results apart; all others stand in any context."""

    name = "places"
    talk = []
    # Where an ephemeral may stand, and which of them may have a Remote.
    spots, with_remotes = [*CONTEXTS], "w"

    def commands(self):
        """The sixteen commands of each state."""
        return [f"modify c a mode={MODES[n % 4]}" for n in range(COMMANDS)]

    def results(self):
        """What tells the entries of results of one link apart."""
        return MODES

    def line(self, name, apart):
        """A line in an entry, by what tells that apart."""
        return {"at": ["c"], "mode": [apart]} if name == "a" else {"at": [*CONTEXTS]}

    def ephemeral(self, name):
        """An ephemeral in an entry."""
        remotes = {"remote": ["none", *(other for other in EPHEMERALS if other != name)]} if name in self.with_remotes else {}
        return {"at": self.spots, **remotes}

    def points(self):
        """How many points an entry has."""
        return occupied([4] * len(OTHERS) + [len(self.spots)] * len(EPHEMERALS)) * 4 ** len(self.with_remotes)

    def script(self, states):
        """States of sixteen commands each; each note leads on."""
        names = ["a", *OTHERS]
        text = [f"lines = {json.dumps(names)}", f"contexts = {json.dumps([*CONTEXTS])}", f"ephemerals = {json.dumps([*EPHEMERALS])}"]
        text += ['start = "idle"', 'restart = "idle"', *NUMBER, "[[events]]", 'name = "each"', f"list = {EACH_ITEM}", "[[state]]", 'name = "idle"']
        for state in range(states):
            following = f"s{(state + 1) % states}"
            text += ["[[state]]", f'name = "s{state}"', f"do = {json.dumps(self.commands())}", f'ok = "{following}"', f'fault = "{following}"']
            text += [*led_on(following, names), *([f"talk = {json.dumps(self.talk)}"] if self.talk else [])]
        return "\n".join(text) + "\n"

    def entry(self, state, link, apart):
        """An entry of a state at this link."""
        lines = {name: {**self.line(name, apart), "events": ["each"]} for name in ("a", *OTHERS)}
        contexts = {name: ["live"] for name in CONTEXTS}
        return {"state": state, "link": [link], "lines": lines, "contexts": contexts, "ephemerals": {name: self.ephemeral(name) for name in EPHEMERALS}}

    def certificate(self, states, wide, link="sent"):
        """A certificate for such a script, with so many entries at this link in each state, behind those for results."""
        entries = [{"state": "idle", "link": ["ok", "rest"], "lines": {name: {"events": ["none", "armed"]} for name in ("a", *OTHERS)}}]
        apart = self.results()
        for state in range(states):
            entries += [self.entry(f"s{state}", result, each) for result in ("ok", "fault", "sent") for each in apart]
            entries += [self.entry(f"s{state}", link, apart[n % len(apart)]) for n in range(wide)]
        return json.dumps({"version": 2, "entries": entries}, separators=(",", ":")) + "\n"

    def behind_all(self, states, wide, link, apart):
        """The same with these entries behind those of all states for results, told apart by these, one after the other."""
        document = json.loads(Placed.certificate(self, states, 0, link))
        for state in range(states):
            document["entries"] += [self.entry(f"s{state}", link, apart[n % len(apart)]) for n in range(wide)]
        return json.dumps(document, separators=(",", ":")) + "\n"

    def most(self):
        """How many such entries the limits allow in all states, beside those for results."""
        return STATES * (ENTRIES - 3 * len(self.results()))


class Absent(Placed):
    """The same, where an ephemeral may be absent, so that points differ in which names are bound."""

    name = "places, with ephemerals absent or there"
    spots, with_remotes = ["absent", *CONTEXTS], ""


class Crossed(Placed):
    """Ephemerals that name each other in any way, in the contexts of four lines that talk: who is joined is asked of each point. The last line is inactive, and
    isn't marked."""

    name = "places and Remotes, with media"
    talk = ["a-b", "a-g", "b-g"]
    with_remotes = EPHEMERALS

    def line(self, name, apart):
        own = dict(zip(("a", *OTHERS), CONTEXTS))[name]
        return {"at": [own], "mode": [apart] if name == "a" else ALWAYS if name == "h" else ["SendReceive"]}

    def ephemeral(self, name):
        return {**super().ephemeral(name), "mode": ["SendReceive"]}

    def points(self):
        return 4 ** len(EPHEMERALS) * 4 ** len(EPHEMERALS)


class Unjoined(Crossed):
    """The same, where media comes and goes by the last line too, which stands where no ephemeral does: that no way leads to it is asked."""

    name = "places and Remotes, with a line that no way leads to"
    spots = [*CONTEXTS[:3]]

    def line(self, name, apart):
        return {**super().line(name, apart), **({"mode": ["SendReceive"]} if name == "h" else {})}

    def points(self):
        return 3 ** len(EPHEMERALS) * 4 ** len(EPHEMERALS)


class Parted(Placed):
    """Places, with results in parts: by the halves of contexts in which the second line and the third stand. So no entry has all that a step makes."""

    name = "places, with results in parts"

    def results(self):
        return [(mode, one, other) for mode in MODES for one in (CONTEXTS[:2], CONTEXTS[2:]) for other in (CONTEXTS[:2], CONTEXTS[2:])]

    def line(self, name, apart):
        mode, one, other = apart
        return super().line(name, mode) if name not in "bg" else {"at": [*(one if name == "b" else other)]}

    def certificate(self, states, wide, link="sent"):
        return self.behind_all(states, wide, link, [(mode, CONTEXTS, CONTEXTS) for mode in MODES])


class Shattered(Placed):
    """The same in 32 parts: by where the second line and the third stand, and by the halves of where the fourth does."""

    name = "places, with results in 32 parts"

    def commands(self):
        return ["modify c a mode=Inactive"] * COMMANDS

    def results(self):
        return [*itertools.product(CONTEXTS, CONTEXTS, (CONTEXTS[:2], CONTEXTS[2:]))]

    def line(self, name, apart):
        return super().line(name, ALWAYS[0]) if name == "a" else {"at": [*apart[OTHERS.index(name)]]}

    def certificate(self, states, wide, link="sent"):
        return self.behind_all(states, wide, link, [(CONTEXTS, CONTEXTS, CONTEXTS)])


class Few(Placed):
    """Entries of so few points each that they are looked at one by one: the ephemerals stand where they are, and the first has one of three Remotes."""

    name = "places, few in an entry"

    def ephemeral(self, name):
        return {"at": [dict(zip("zwxy", CONTEXTS))[name]], **({"remote": ["none", "x", "y"]} if name == "w" else {})}

    def points(self):
        return 4 ** len(OTHERS) * 3


class Moved(Placed):
    """The first line is moved to and fro, from the context of the second: what a command makes hangs on where all stand."""

    name = "places, with a line that is moved"
    with_remotes = "wx"

    def commands(self):
        return [f"move {'dc'[n % 2]} a" for n in range(COMMANDS)]

    def results(self):
        return ["c", "d"]

    def line(self, name, apart):
        return {"at": [apart] if name == "a" else ["c"] if name == "b" else [*CONTEXTS]}

    def points(self):
        """How many points an entry has in which the first line stands beside the second."""
        return occupied([4] * 6) * 4 ** len(self.with_remotes)

    def certificate(self, states, wide, link="sent"):
        return self.behind_all(states, wide, link, ["c"])


class Added(Moved):
    """The first line is subtracted from the context of the second, and added to it again."""

    name = "places, with a line that is subtracted and added"
    with_remotes = "w"

    def commands(self):
        return [("subtract c a", "add c a")[n % 2] for n in range(COMMANDS)]

    def results(self):
        return ["c", "-"]

    def entry(self, state, link, apart):
        found = super().entry(state, link, apart)
        found["lines"]["a"]["events"] = ["none", "each"]
        return found

    def points(self):
        return 2 * super().points()


class Emptied(Placed):
    """The contexts but the first are left by all at the end of each request, whoever stands there."""

    name = "places, with contexts that all leave"

    def commands(self):
        return ["modify c a mode=Inactive"] * (COMMANDS - 3) + [f"subtract {name} *" for name in CONTEXTS[1:]]

    def results(self):
        """How many contexts are left."""
        return [0, 1, 2, 3]

    def entry(self, state, link, apart):
        empty = CONTEXTS[1 : 1 + apart]
        at = [name for name in CONTEXTS if name not in empty]
        lines = {"a": {"at": ["c"], "events": ["each"]}, **{name: {"at": ["-"] * (apart > 0) + at, "events": ["none"]} for name in OTHERS}}
        contexts = {name: ["free" if name in empty else "live"] for name in CONTEXTS}
        ephemerals = {name: {"at": ["absent"] * (apart > 0) + at} for name in EPHEMERALS}
        return {"state": state, "link": [link], "lines": lines, "contexts": contexts, "ephemerals": ephemerals}

    def points(self):
        return occupied([4] * (len(OTHERS) + len(EPHEMERALS)))

    def certificate(self, states, wide, link="sent"):
        return self.behind_all(states, wide, link, [0])


class Sought(Placed):
    """The last ephemeral, in any context and any mode, is modified in the first context: so a request is executed where it is found there alone."""

    name = "places, with an ephemeral that is sought in one"
    with_remotes = ""

    def commands(self):
        return [f"modify c z mode={MODES[n % 4]}" for n in range(COMMANDS)]

    def entry(self, state, link, apart):
        found = super().entry(state, link, ALWAYS[0])
        found["ephemerals"]["z"] = {"at": ["c"], "mode": [MODES[(COMMANDS - 1) % 4]]} if link == "ok" else {"at": [*CONTEXTS], "mode": MODES}
        return found

    def results(self):
        return ALWAYS

    def points(self):
        return 4 * occupied([4] * (len(OTHERS) + len(EPHEMERALS)))


# The kinds whose points differ in places. Those of the first are also asked for at rest.
SENT = (Placed, Absent, Crossed, Unjoined, Parted, Shattered, Moved, Added, Emptied, Sought, Few)
