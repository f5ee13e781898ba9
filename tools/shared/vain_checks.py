"""Inputs of `mgcall check` as somebody would send them who knows how it goes about them, each a yes: what is asked of many points at once is asked in vain,
or points are looked at one by one and have their results in another entry each time. `Shape` makes them of few parameters; `shapes` has those that the bench
measures."""
import itertools
import json
import math
from dataclasses import dataclass, field

from shared.certificates import ENTRIES, MODES, PRODUCT
from shared.slow_checks import EACH_ITEM, NUMBER, led_on

LINES, CONTEXTS, EPHEMERALS = "abgh", "cdef", "wxyz"
COMMANDS, LISTS = 16, [f"l{n}" for n in range(16)]
MARKS = f"talk = {json.dumps([f'{one}-{other}' for one, other in itertools.combinations(LINES, 2)])}"
# What each entry has of a component that doesn't differ: the second line stands in a context of its own, all others in the first.
FIXED = {
    **{f"lines.{line}.at": ["d" if line == "b" else "c"] for line in LINES},
    **{f"lines.{line}.events": LISTS[:1] for line in LINES},
    **{f"contexts.{name}": ["live"] for name in "cd"},
    **{f"ephemerals.{name}.at": ["c"] for name in EPHEMERALS},
}


def others(name):
    """The Remotes that an ephemeral may have, none among them."""
    return ["none", *(other for other in EPHEMERALS if other != name)]


# Where each of some terminations may stand in two contexts, and which Remotes each ephemeral may have.
SPOTS = {f"ephemerals.{name}.at": ["c", "d"] for name in EPHEMERALS} | {f"lines.{line}.at": ["c", "d"] for line in "gh"}
REMOTES = {f"ephemerals.{name}.remote": others(name) for name in EPHEMERALS}


def parts(space, levels):
    """Entries that have a space between them. One level: an entry for each choice of its components. Of several, each choice of the first is in an entry with
    the first choice of all behind it, and so on: these are as many as the levels have choices together, but whoever parts the space by what the first entries
    differ in has as many parts as the product."""
    if not levels:
        yield space
    for number, level in enumerate(levels):
        later = {path: space[path][:1] for behind in levels[number + 1 :] for path in behind}
        for place, choice in enumerate(itertools.product(*(space[path] for path in level))):
            if place or not number:
                yield {**space, **later, **{path: [value] for path, value in zip(level, choice)}}


def numbers_of(links, space):
    """How many numbers an entry has."""
    return math.prod(map(len, (links, *space.values())))


def is_within(each):
    """Whether an entry, as links and a space, has no more numbers than the limit."""
    return numbers_of(*each) <= PRODUCT


def entry(state, links, space):
    """An entry of a state at these links."""
    found = {"state": state, "link": links}
    for path, values in space.items():
        *above, last = path.split(".")
        place = found
        for key in above:
            place = place.setdefault(key, {})
        place[last] = values
    return found


def idle_entry():
    """The entry of the state that calls begin in."""
    return {"state": "idle", "link": ["ok", "rest"], "lines": {line: {"events": ["none", "armed"]} for line in LINES}}


def script_of(states, are_marked=True):
    """A script of four lines, contexts and ephemerals and of sixteen events lists, each of which raises every note. Each state: its name and its lines, and
    marks for each two lines."""
    text = [f"lines = {json.dumps([*LINES])}", f"contexts = {json.dumps([*CONTEXTS])}", f"ephemerals = {json.dumps([*EPHEMERALS])}"]
    text += ['start = "idle"', 'restart = "idle"', *NUMBER]
    text += [line for name in LISTS for line in ("[[events]]", f'name = "{name}"', f"list = {EACH_ITEM}")]
    text += ["[[state]]", 'name = "idle"']
    for name, lines in states:
        text += ["[[state]]", f'name = "{name}"', *([MARKS] if are_marked else []), *lines]
    return "\n".join(text) + "\n"


def certificate_of(entries):
    return json.dumps({"version": 2, "entries": [idle_entry(), *entries]}, separators=(",", ":")) + "\n"


@dataclass
class Shape:
    """States that lead to each other round and round, whose requests are sent. `turned` are the values of what differs; the entries of refusals, of what is
    executed and of what is sent have all of it between them, in parts by these levels; those of what is sent stand there so many times, and besides
    so many narrow ones of one point. Far: behind all of them stand the entries of results. No command leads out of what is turned. Where lines aren't marked no
    two may be joined."""

    name: str
    turned: dict
    refused: list = field(default_factory=list)
    executed: list = field(default_factory=list)
    sent: list = field(default_factory=list)
    commands: list = field(default_factory=lambda: ["modify c a mode=Inactive"] * COMMANDS)
    wide: int = 1
    narrow: int = 0
    states: int = 1
    is_far: bool = False
    are_marked: bool = True

    def space(self):
        return {**FIXED, **self.turned}

    def script(self):
        """The script, whose states lead on after a reply and a fault."""
        states = []
        for number in range(self.states):
            following = f"s{(number + 1) % self.states}"
            states.append((f"s{number}", [f"do = {json.dumps(self.commands)}", f'ok = "{following}"', f'fault = "{following}"']))
        return script_of(states, self.are_marked)

    def results(self):
        """What the entries of results are: their links and their space. Refusals and what is executed share them where they are parted alike and it fits."""
        apart = [(["fault"], part) for part in parts(self.space(), self.refused)] + [(["ok"], part) for part in parts(self.space(), self.executed)]
        shared = [(["ok", "fault"], part) for part in parts(self.space(), self.refused)]
        return shared if self.refused == self.executed and all(map(is_within, shared)) else apart

    def of_state(self):
        """The same of all entries of a state."""
        sent = [(["sent"], part) for part in parts(self.space(), self.sent)] * self.wide
        narrow = [(["sent"], {path: values[:1] for path, values in self.space().items()})] * self.narrow
        return [*narrow, *sent, *self.results()] if self.is_far else [*self.results(), *sent, *narrow]

    def certificate(self):
        return certificate_of([entry(f"s{number}", *each) for number in range(self.states) for each in self.of_state()])

    def fits(self):
        """Whether it is within the limits of a certificate."""
        return len(self.of_state()) <= ENTRIES and all(map(is_within, self.of_state()))


class Resting(Shape):
    """The same at rest: each note of each line and the timer lead from one state to another one, in which a request begins. Where its commands are all left
    out it is answered at once; else its first one is refused."""

    def is_empty(self):
        return all(command.split(" ")[1] == "f" for command in self.commands)

    def script(self):
        states = []
        for number in range(self.states):
            # The other state leads to itself.
            again = [f'ok = "t{number}"', f'fault = "t{number}"']
            states += [(f"r{number}", led_on(f"t{number}", LINES)), (f"t{number}", [f"do = {json.dumps(self.commands)}", *again])]
        return script_of(states, self.are_marked)

    def results(self):
        return [(["ok"] if self.is_empty() else ["sent", "fault"], part) for part in parts(self.space(), self.refused)]

    def certificate(self):
        entries = []
        for number in range(self.states):
            entries += [entry(f"r{number}", ["rest"], part) for part in parts(self.space(), self.sent)] * self.wide
            entries += [entry(f"t{number}", *each) for each in self.results()]
        return certificate_of(entries)

    def fits(self):
        at_rest = [(["rest"], part) for part in parts(self.space(), self.sent)] * self.wide
        return all(len(each) <= ENTRIES and all(map(is_within, each)) for each in (at_rest, self.results()))


class Apart(Resting):
    """The same, but each note and the timer lead to a state of their own."""

    def targets(self):
        return [f"t{place}" for place in range(len(led_on("", LINES)))]

    def script(self):
        leading = [line.replace('""', f'"{target}"') for line, target in zip(led_on("", LINES), self.targets())]
        led_to = [(target, [f"do = {json.dumps(self.commands)}", f'ok = "{target}"', f'fault = "{target}"']) for target in self.targets()]
        return script_of([("r0", leading), *led_to], self.are_marked)

    def certificate(self):
        entries = [entry("r0", ["rest"], part) for part in parts(self.space(), self.sent)] * self.wide
        return certificate_of([*entries, *(entry(target, *each) for target in self.targets() for each in self.results())])


class Left(Shape):
    """All leave the first context; who stays in the second one may name either of two that leave or stay, so whether its Remote is gone hangs on which it
    names. Only what holds of the points is in the entries, and what is asked of many at once is more."""

    def script(self):
        # What leads to the last state is answered there at once, since its command is left out.
        commands = [*[(f"s{number}", self.commands) for number in range(self.states)], ("done", ["modify f h mode=Inactive"])]
        leads = ['ok = "done"', 'fault = "done"']
        return script_of([(name, [f"do = {json.dumps(each)}", *leads]) for name, each in commands], self.are_marked)

    def left(self):
        """What is there when all have left: for each way in which the two that are named leave or stay, what may be named."""
        lines = {f"lines.{line}.{key}": values for line in "agh" for key, values in (("at", ["-"]), ("events", ["none"]))}
        lines |= {f"lines.{line}.{key}": values for line in "gh" for key, values in (("at", ["-", "d"]), ("events", ["none", *LISTS[:1]]))}
        for spots in itertools.product(["absent", "d"], repeat=2):
            stay = [name for name, at in zip("wx", spots) if at == "d"]
            named = ["none", *stay, *(["gone"] if len(stay) < 2 else [])]
            own = {f"ephemerals.{name}.at": [at] for name, at in zip("wx", spots)}
            own |= {f"ephemerals.{name}.remote": ["none"] for name in "wx" if name not in stay}
            yield {**self.space(), **lines, "contexts.c": ["free"], **own, "ephemerals.y.remote": named, "ephemerals.z.remote": named}

    def certificate(self):
        entries = [entry("done", ["ok"], part) for part in (*self.left(), self.space())]
        for number in range(self.states):
            state = f"s{number}"
            entries += [entry(state, ["fault"], self.space()), *(entry(state, ["ok"], part) for part in self.left())]
            entries += [entry(state, ["sent"], self.space())] * self.wide
        return certificate_of(entries)


# ---- those that the bench measures


def spot(name):
    return f"ephemerals.{name}.at"


def remote(name):
    return f"ephemerals.{name}.remote"


# A request each command of which gives a line another mode.
STIRRING = [f"modify c a mode={MODES[place % 4]}" for place in range(COMMANDS)]
# All that an entry of 65,536 numbers may have of two contexts; and of ephemerals that are absent or there, with names of contexts that are free or bound.
PLACED = {**SPOTS, **REMOTES, "lines.g.mode": MODES}
NAMED = {
    **{f"contexts.{name}": ["free", "live"] for name in CONTEXTS},
    **{spot(name): ["absent", "c", "d"] for name in EPHEMERALS},
    **{f"lines.{line}.at": ["-", *CONTEXTS] for line in "gh"},
    "lines.b.at": ["-", "d"],
}
# The same where there are as many hulls to be asked as sets of names: the budget of an entry is one for 256 numbers.
NAMED_ENOUGH = {
    **{f"contexts.{name}": ["free", "live"] for name in CONTEXTS},
    **{spot(name): ["absent", "c", "d", "e"] for name in EPHEMERALS},
    **{f"lines.{line}.at": [*CONTEXTS] for line in "gh"},
}


def vain():
    """Blocks that are asked in vain: sixteen refusals that lie in 128 parts each, which can be told, and what is executed in 256 or 8,192, which is too much;
    and the same in 128, which is told. Then 8,192 parts of each; and what holds of the points, but not of all in their hull."""
    last = [spot("z"), remote("z")]
    few, many = [[remote("x"), remote("y")], last], [[remote("x"), spot("y"), remote("y")], last]
    for wide, states in ((1, 1), (2, 2)):
        yield Shape("refused in 128 parts, executed in 256", PLACED, few, many, wide=wide, states=states)
        yield Shape("the same behind narrow entries", PLACED, few, many, wide=wide, narrow=180, states=states, is_far=True)
        yield Shape("refused and executed in 128 parts", PLACED, few, few, wide=wide, states=states)
    placed = {**SPOTS, **REMOTES, "lines.a.mode": MODES}
    for executed, said in ((few, "refused and executed in 128 parts"), (many, "refused in 128 parts, executed in 256")):
        yield Shape(f"{said}, each command changing a mode", placed, few, executed, commands=STIRRING)
    shattered = [["lines.g.at", "lines.h.at", spot("w"), remote("w")], [spot("x"), remote("x"), spot("y")], [remote("y"), remote("z")]]
    leaving = ["modify c a mode=Inactive"] * (COMMANDS - 1) + ["subtract c *"]
    named = {spot("w"): ["c", "d"], spot("x"): ["c", "d"], spot("y"): ["d"], spot("z"): ["d"]}
    named |= {remote(name): ["none", "y", "z"] for name in "wx"} | {remote(name): ["none", "w", "x"] for name in "yz"}
    named |= {f"lines.{line}.at": ["c", "d"] for line in "gh"} | {"lines.b.events": LISTS[:12]}
    for wide in (1, 2):
        yield Shape("refused in 128 parts, executed in 8,192 of 62 entries", PLACED, few, shattered, wide=wide)
        yield Shape("refused and executed in 8,192 parts of 62 entries", PLACED, shattered, shattered, wide=wide)
        yield Left("a Remote that may name two who leave", named, commands=leaving, wide=wide)


def settled():
    """Points that differ in settings alone: what a step makes of an entry lies in so many parts that they are asked for in vain, of requests that are sent and of
    calls at rest."""
    turned = {f"lines.{line}.{key}": values for line in "bgh" for key, values in (("mode", MODES), ("events", LISTS[:4]), ("plays", ["no", "may"]))}
    turned["lines.a.plays"] = ["no", "may"]
    shattered = [[f"lines.b.{key}" for key in ("mode", "events", "plays")], *([f"lines.{line}.{key}" for key in ("mode", "events")] for line in "gh")]
    for wide in (1, 2):
        yield Shape("settings in 8,192 parts of 62 entries", turned, shattered, shattered, wide=wide)
        yield Resting("settings at rest in 8,192 parts of 62 entries", turned, shattered, commands=["modify c b mode=Inactive"], wide=wide)


def bound():
    """Names that are bound in some points and free in others, so that hulls are asked for 256 sets of names."""
    scattered = [["lines.g.at", "lines.h.at"], [spot("w"), spot("x")]]
    for wide in (8, 16):
        for turned, said in ((NAMED, "in vain"), (NAMED_ENOUGH, "with a hull for each")):
            yield Shape(f"256 sets of names, {said}", turned, wide=wide)
            yield Shape(f"256 sets of names, {said}, results scattered", turned, scattered, scattered, wide=wide)
    stirred = {name: values for name, values in NAMED.items() if name not in ("contexts.c", "contexts.d")} | {"lines.a.mode": MODES}
    yield Shape("64 sets of names, each command changing a mode", stirred, commands=STIRRING, wide=2)


def alone():
    """Points that are looked at one by one, each entry of fewer than 256 numbers: the results of each point lie in another entry than those of the point
    before, and of each step, where commands change what tells entries apart."""
    turned = {"lines.h.mode": MODES, "lines.h.events": LISTS[:12], remote("z"): others("z")}
    turned |= {"lines.b.mode": MODES, "lines.g.mode": MODES, remote("w"): others("w")}
    results, sent = [["lines.h.mode", "lines.h.events", remote("z")]], [["lines.b.mode", "lines.g.mode", remote("w")]]
    stirring = [f"modify c h mode={MODES[n % 4]} events={LISTS[n % 12]}" if n % 2 else f"modify c z remote={others('z')[n % 4]}" for n in range(COMMANDS)]
    near = {**turned, "lines.h.events": LISTS[:1], "lines.b.events": LISTS[:3]}
    few, most = [["lines.h.mode", remote("z")]], [[*sent[0], "lines.b.events"]]
    crossed = {f"ephemerals.{name}.mode": MODES[3:] for name in EPHEMERALS} | REMOTES | {"lines.b.events": LISTS[:12]}
    named, naming = [[remote("y"), remote("z")]], [[remote("w"), remote("x"), "lines.b.events"]]
    for states in (2, 5):
        yield Shape("one by one, results of each point in one of 192 entries", turned, results, results, sent, states=states)
        yield Shape("one by one, results of each step in one of 192 entries", turned, results, results, sent, stirring, states=states)
        yield Shape("one by one, results of each point in one of 16 entries", near, few, few, most, states=4 * states)
        yield Shape("the same with media and without marks", crossed, named, named, naming, states=4 * states, are_marked=False)


def resting():
    """Points at rest that are looked at one by one, with 21 notes each, which lead to a state whose request is empty, or whose first command is refused."""
    turned = {"lines.h.events": LISTS[:15], remote("y"): others("y"), remote("z"): others("z")}
    turned |= {"lines.a.mode": MODES, "lines.b.events": LISTS[:15], remote("x"): others("x")}
    inner, outer = [[*turned][:3]], [[*turned][3:]]
    for states in (1, 2):
        yield Resting("at rest, leading to a request that is empty", turned, inner, [], outer, ["modify f h mode=Inactive"] * COMMANDS, states=states)
        yield Resting("at rest, leading to a full request", turned, inner, [], outer, ["modify c b mode=Inactive"] * COMMANDS, states=states)
    for commands, said in ((["modify f h mode=Inactive"], "requests that are empty"), (["modify c b mode=Inactive"], "full requests")):
        yield Apart(f"at rest, each note leading to another of 21 {said}", turned, inner, [], outer, commands * COMMANDS)


def shapes():
    """Each shape with how many times the plain checker's instructions it may take: 1.5 where points are looked at one by one, and else 3."""
    for made, most in ((vain, 3), (settled, 3), (bound, 3), (alone, 1.5), (resting, 1.5)):
        for shape in made():
            yield shape, most
