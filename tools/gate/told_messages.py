"""The messages that a run has, as values, by its script, its plan and what `mgexplain` tells of it, with what became of each. `tools/gate/traces` holds what a
parser reads in the written messages against them. It knows nothing of how messages are written."""
import itertools
import re
import tomllib

from gate.apart import alternatives

CALL, GATEWAY = "127.0.0.1", "127.0.0.2"
COMMAND = re.compile(r"(add|modify|move|subtract) (\$?)([a-z0-9_]+|-) (\$?)([a-z0-9_]+|\*)((?: (?:mode|events|signals|remote)=\w+)*)")
TOPOLOGY = re.compile(r"topology (\w+) (\w+) (\w+) (isolate|oneway|bothway)")
RESTARTS = ("restart", "end of an epoch", "restart of another call")
EVENTS = {"on": "al/on", "of": "al/of", "fl": "al/fl", "full": "dd/ce", "part": "dd/ce"}
LOST = ("lost", None)


class Request:
    """The names of a request as its commands come: what its call knew, and what they make."""

    def __init__(self, call, told, results):
        self.call, self.number = call, told["request_number"]
        self.results = {each["command_place"]: each for each in results}
        self.contexts = {"-": ("-", None), **{each["name"]: (str(each["number"]), None) for each in told.get("contexts", [])}}
        self.terminations = {"*": "*", "none": None, **call.lines, **{each["name"]: f"e/{each['number']}" for each in told.get("ephemerals", [])}}
        self.commands = [(each["command_place"], each["command"]) for each in told["request"]]
        self.before = None

    def make(self, place, makes_context, context, makes_termination, termination):
        """What a command makes has the sign for what the gateway chooses, or the number that it chose."""
        result = self.results.get(place, {})
        if makes_context:
            self.contexts[context] = (str(result["context"]) if result else "$", place)
        if makes_termination:
            self.terminations[termination] = f"e/{result['created']}" if result else "$"

    def begins(self, context, is_topology):
        """Whether a command has to begin an action: it is of another context than the one before it, or one of the two is a topology."""
        here = (context, is_topology)
        was, self.before = self.before, here
        return was is None or was[0] != context or was[1] or is_topology

    def part(self, place, text):
        """A command of a request, or of a reply: its context, whether it begins an action, its word, its terminations and what it sets."""
        if found := TOPOLOGY.fullmatch(text):
            context, first, second, word = found.groups()
            begins = self.begins(self.contexts[context], True)
            return self.contexts[context][0], begins, "topology", self.terminations[first], self.terminations[second], word
        verb, makes_context, context, makes_termination, termination, options = COMMAND.fullmatch(text).groups()
        sets = self.sets(dict(option.split("=") for option in options.split()))
        self.make(place, makes_context, context, makes_termination, termination)
        begins = self.begins(self.contexts[context], False)
        return self.contexts[context][0], begins, verb, self.terminations[termination], sets

    def sets(self, options):
        """What the options of a command set."""
        found = {key: options[key] for key in ("mode",) if key in options}
        if "remote" in options:
            found["remote"] = self.terminations[options["remote"]]
        if "events" in options:
            items = [tuple((item.split("=") + [None])[:2]) for item in self.call.lists["events"][options["events"]]]
            found["events"] = (self.number if items else None, items)
            maps = {value: alternatives(self.call.maps[value]) for name, value in items if name == "dd/ce"}
            found |= {"maps": maps} if maps else {}
        if "signals" in options:
            found["signals"] = self.call.lists["signals"][options["signals"]]
        return found

    def parts(self):
        return [self.part(place, text) for place, text in self.commands]


def said(context, begins, *more):
    """A command as it is compared: where its context is for the gateway to choose, with whether it begins an action."""
    return (context, begins if context == "$" else None, *more)


class Call:
    """A call as its steps are told."""

    def __init__(self, script, numbers):
        self.lines = {name: f"l/{number}" for name, number in zip(script["lines"], numbers)}
        self.lists = {
            kind: {"none": [], **others, **{each["name"]: each["list"] for each in script.get(kind, [])}}
            for kind, others in (("events", {"armed": ["al/of"]}), ("signals", {}))
        }
        self.maps = {each["name"]: each["map"] for each in script.get("maps", [])}
        self.restarts, self.place = 0, {}

    def begin(self):
        """A line of the report: what was sent, each message with what became of it so far, and which are on their way."""
        self.sent, self.on_way = [], {}

    def send(self, key, value):
        """A message is sent. The one that was sent before under the same key isn't looked for any more."""
        self.on_way[key] = len(self.sent)
        self.sent.append([value, LOST])

    def end(self, key, word, step):
        """What is on its way under a key comes to its end, where something is."""
        place = self.on_way.pop(key)
        self.sent[place][1] = (word, step.get("step_place"))

    def step(self, step):
        """All that a step delivers, and then all that is sent at it."""
        if step["came"] in RESTARTS:
            self.restarts, self.place = self.restarts + 1, {}
            self.send("restart", (GATEWAY, 2**32 - 1 - self.restarts, "restart", "-", "root", "restart", ["901 Cold Boot"]))
        if step["came"] == "event" and step["step"] == "hear":
            self.end("restart", "heard", step)
        if "executed" in step:
            self.executed(step["executed"], step)
        if "reply" in step:
            self.end(("reply", step["reply"]["request_number"]), "taken", step)
        if "note" in step:
            self.end(("note", step["note"]["note_number"]), "taken", step)
        for note in step.get("notes", []):
            self.send(("note", note["note_number"]), self.note(note))
        if "sent" in step:
            self.send(("request", step["sent"]["request_number"]), self.request(step["sent"]))

    def executed(self, told, step):
        """A request comes to the gateway."""
        key = ("request", told["request_number"])
        if key not in self.on_way:
            self.send(key, self.request(told))
        self.end(key, {"executed": "executed", "repeated": "answered by the kept reply", "discarded": "discarded"}[told["fate"]], step)
        if told["fate"] == "executed":
            self.move(told)
        if told["fate"] != "discarded":
            self.send(("reply", told["request_number"]), self.reply(told))

    def move(self, told):
        """Where lines stand behind a request that was executed."""
        for each in told.get("results", []):
            found = COMMAND.fullmatch(told["request"][each["command_place"]]["command"])
            if found and found[1] in ("add", "move") and not found[4]:
                self.place[found[5]] = str(each["context"])
            self.place |= {name: "-" for name in each.get("subtracted_lines", [])}

    def request(self, told):
        return CALL, told["request_number"], "request", [said(*part) for part in Request(self, told, []).parts()]

    def reply(self, told):
        """The reply to a request: each command that was done, what a Subtract took away one by one, and the error of the one that was refused."""
        found, refused, results = [], told.get("refused", {}), told.get("results", [])
        for (context, _, verb, termination, *more), (place, _) in zip(Request(self, told, results).parts(), Request(self, told, results).commands):
            result = next((each for each in results if each["command_place"] == place), None)
            if result is None:
                found += [(context, "error", refused["code"])] if place == refused.get("command_place") else []
            elif verb == "subtract":
                gone = [self.lines[name] for name in result.get("subtracted_lines", [])] + [f"e/{number}" for number in result.get("subtracted_ephemerals", [])]
                found += [(context, verb, one) for one in gone]
            else:
                found.append((context, verb, termination, *(more if verb == "topology" else [])))
        return GATEWAY, told["request_number"], "reply", found

    def note(self, note):
        parameters = {"ds": note["symbols"], "meth": note["method"].lower()} if "method" in note else {}
        where = self.place.get(note["on_line"], "-")
        return GATEWAY, note["note_number"], "notify", where, self.lines[note["on_line"]], note["raised_by"], EVENTS[note["note_kind"]], parameters


def expected(page, script, plan):
    """The messages of a run, as values, each with what became of it and at which step."""
    script, calls = (tomllib.loads(text.decode("utf-8-sig")) for text in (script, plan))
    told = [line for line in page["report"] if "steps" in line]
    for number, lines in itertools.groupby(told, lambda line: line["call"]):
        call = Call(script, calls["call"][number]["lines"])
        for line in lines:
            call.begin()
            for step in line["steps"]:
                call.step(step)
            yield from map(tuple, call.sent)
