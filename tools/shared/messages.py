"""The messages of a run, in the order in which they were sent, from what `mgexplain` tells of its steps: each with its text and with what became of it. A
message that is sent and never comes to its end at a step was lost; one that comes to its end a second time was sent twice. It is installed too, so it knows
nothing of this repository."""
import itertools
from collections import namedtuple

from shared import annex_b, requests, scripts

# What became of a message: the place of the step at which it came to its end, None where it was lost; in words; and whether that is other than that it was
# taken or executed.
End = namedtuple("End", "ended fate is_marked")
# A message as a step sends it: its name, whether the gateway sent it, its text, what it is, what became of it, and what of it has no text of its own.
Sent = namedtuple("Sent", "name is_gateways text about end nearest")
# The same with the call of the report that it is of, and the step at which it was sent, by its place and in words.
Message = namedtuple("Message", "call sent step name is_gateways text about ended fate is_marked nearest")
RESTARTS = ("restart", "end of an epoch", "restart of another call")
LOST = End(None, "lost", True)
# The TransactionIDs of restarts go down from the greatest one, those of notes up from 1: the association with a number has this one less the number.
ABOVE_IDS = 2**32
FIRST_ASSOCIATION = 1


def at(step):
    """A step, as a message names it: its place and its words, or what stands between two steps."""
    return f"step {step['step_place']} ({step['step']})" if "step_place" in step else step["step"]


def call_of(line):
    """The number of a call, as its line of the report has it."""
    return str(line["call"]) + (f".{line['begun']}" if line["begun"] else "")


def first(steps, test):
    """The first of these steps, each with its place, that passes a test; None where none does."""
    return next((one for one in steps if test(one[1])), None)


class Call:
    """A call of the plan as its steps are told: where its lines stand, and in which association it is."""

    def __init__(self, script, numbers):
        self.script = script
        self.lines = {name: requests.line(number) for name, number in zip(script["lines"], numbers)}
        self.association = FIRST_ASSOCIATION
        self.place = {}

    def messages(self, line):
        """The messages of a line of the report."""
        steps, seen = [*enumerate(line["steps"])], set()
        for place, step in steps:
            for sent in self.of_step((place, step), steps[place + 1 :], seen):
                yield Message(call_of(line), place, at(step), *sent[:4], *sent.end, sent.nearest)

    def of_step(self, here, later, seen):
        """What is sent at a step, which is followed by others; `seen` has the numbers of the requests that came to the gateway."""
        step = here[1]
        if step["came"] in RESTARTS:
            yield self.restart(later)
        elif "executed" in step:
            yield from self.executed(here, later, seen)
        for note in step.get("notes", []):
            yield self.note(note, later)
        if "sent" in step:
            yield self.request(step["sent"], later)

    def restart(self, later):
        """The gateway's word that it restarted. Only the newest is ever heard."""
        self.association, self.place = self.association + 1, {}
        same = itertools.takewhile(lambda one: one[1]["came"] not in RESTARTS, later)
        heard = first(same, lambda step: step["step"] == "hear" and step["came"] == "event")
        about = f"the gateway restarts, and its association {self.association} begins"
        return Sent("restart", True, annex_b.service_change(ABOVE_IDS - self.association), about, taken("heard", heard), [])

    def executed(self, here, later, seen):
        """A request that comes to the gateway, where that isn't for the first time, and its reply."""
        told = here[1]["executed"]
        number, fate = told["request_number"], told["fate"]
        if number in seen:
            yield Sent(f"request {number}", False, self.text_of(told), f"the call's request {number} once more", met(here), [])
        seen.add(number)
        if fate == "executed":
            self.follow(told)
        if fate != "discarded":
            yield self.reply(told, later)

    def reply(self, told, later):
        """The reply to a request. Of two copies the later one is taken."""
        number, done = told["request_number"], requests.results(told, self.lines)
        text = annex_b.reply(number, [*self.named(told, done)], done, told.get("refused"))
        same = itertools.takewhile(lambda one: not (is_executed(one[1], number) and one[1]["executed"]["fate"] == "repeated"), later)
        end = taken("taken", first(same, lambda step: "reply" in step and step["reply"]["request_number"] == number))
        about = f"the gateway's reply to request {number}" + (", which it kept, once more" if told["fate"] == "repeated" else "")
        return Sent(f"reply {number}", True, text, about, end, [])

    def note(self, note, later):
        """A note of the gateway."""
        number, line = note["note_number"], note["on_line"]
        text = annex_b.notify(note, self.place.get(line, requests.NULL), self.lines[line])
        end = taken("taken", first(later, lambda step: "note" in step and step["note"]["note_number"] == number))
        return Sent(f"note {number}", True, text, f"the gateway's note {number} of line {line}", end, [])

    def request(self, told, later):
        """A request as the call sends it."""
        number = told["request_number"]
        end = met(first(later, lambda step: is_executed(step, number)))
        about = f"the call's request {number}, of state {told['state']}"
        return Sent(f"request {number}", False, self.text_of(told), about, end, nearest(self.named(told, {})))

    def named(self, told, done):
        """The commands of a request that is told, with what their names stand for."""
        return requests.named(map(requests.command, told["request"]), requests.known(self.lines, told), done)

    def text_of(self, told):
        """The text of a request that is told."""
        return annex_b.request(told["request_number"], [*self.named(told, {})], self.script)

    def follow(self, told):
        """Where the lines stand behind a request, by its results."""
        done = requests.results(told, self.lines)
        for each in (command for command in map(requests.command, told["request"]) if command.place in done):
            if each.verb in ("add", "move"):
                self.place[each.termination] = done[each.place].context
        for name in (name for each in told.get("results", []) for name in each.get("subtracted_lines", [])):
            self.place.pop(name, None)


def is_executed(step, number):
    """Whether the request with a number comes to the gateway at a step."""
    return "executed" in step and step["executed"]["request_number"] == number


def taken(word, one):
    """What became of a message that is taken at a step; without one it is lost."""
    return LOST if one is None else End(one[0], f"{word} at {at(one[1])}", False)


def met(one):
    """What became of a request that comes to the gateway at a step; without one it is lost."""
    if one is None:
        return LOST
    fate = one[1]["executed"]["fate"]
    said = {"executed": "executed", "repeated": "answered by the kept reply", "discarded": "discarded"}[fate]
    return End(one[0], f"{said} at {at(one[1])}", fate != "executed")


def nearest(commands):
    """What of a request has no text of its own: what an earlier command of it makes, and a far end that is another ephemeral."""
    found, before = [], None
    for named in commands:
        each = named.command
        made = named.context.made_at
        if made not in (None, each.place) and (before is None or not annex_b.goes_on(before, named)):
            found.append(f"command {each.place}: Context = $ is the one that command {made} makes")
        for meant in (named.termination, named.second):
            if meant is not None and meant.made_at not in (None, each.place):
                found.append(f"command {each.place}: $ is the termination that command {meant.made_at} makes")
        if named.remote is not None and named.remote.text is not None:
            made = named.remote.made_at
            far_end = named.remote.text if made is None else f"the termination that command {made} makes"
            found.append(f"command {each.place}: the Remote is another ephemeral, {far_end}")
        before = named
    return found


def calls_of(plan):
    """The lines of each call of a plan."""
    return [call["lines"] for call in scripts.read(plan).get("call", [])]


def of_run(page, texts):
    """The messages of a run: of what `mgexplain` tells of a script, a certificate and a plan."""
    script, numbers = scripts.read(texts[0]), calls_of(texts[2])
    told = [line for line in page["report"] if "steps" in line]
    for number, lines in itertools.groupby(told, lambda line: line["call"]):
        call = Call(script, numbers[number])
        for line in lines:
            yield from call.messages(line)


def by_call(sent):
    """Messages with their numbers, from 1, by the calls of the report that they are of."""
    found = {}
    for number, message in enumerate(sent, 1):
        found.setdefault(message.call, []).append((number, message))
    return found
