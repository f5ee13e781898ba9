"""What of a call's messages is on its way, by the facts that `mgexplain` tells of its steps: which arrives next by itself, and which is lost, held or comes
twice as a scenario says. Nothing is worked out of what a call or a gateway does. It is installed too, so it knows nothing of this repository."""
from shared.messages import RESTARTS
from shared.scenarios import reading

RESTING, WAITING, LOST = "resting", "waiting", "lost"
NOTE, REQUEST, REPLY, RESTART = "note", "request", "reply", "restart"
# The steps behind which a state may have been entered, with its request.
ENTERING = ("reply", "pass", "note", "timer", "hear")


class Arm:
    """What goes wrong with a message that is to come: what, with which kind, and which such message it is from here on; of a refusal the command's place."""

    def __init__(self, act):
        self.verb, first, *count = act.parts
        self.kind, self.place = (REQUEST, first) if self.verb == "refuse" else (first, None)
        self.count = int(count[0]) if count else 1


class OnItsWay:
    """What is on its way in a call. A message is its kind and its number; a note has which call on the lines it is of too."""

    def __init__(self, start):
        self.state, self.phase, self.begun, self.association = start, RESTING, 0, 0
        # The request that is awaited, which is None where the call goes on from an empty one, and the last one that was sent.
        self.request, self.last = None, None
        self.executed, self.notes, self.sent = set(), [], 0
        self.arms, self.met, self.lost, self.held, self.twice, self.refused = [], set(), set(), [], set(), {}
        # All that was ever held.
        self.was_held = set()
        # Steps that come first: second copies, and what was held and nobody waits for any more.
        self.first = []
        self.off = set()

    # ---- what the facts tell

    def see(self, told):
        """Takes what is told of a step."""
        self.state, self.phase = told["after"]["state"], told["after"]["phase"]
        if told["came"] in RESTARTS:
            self.notes, self.association = [], self.association + 1
        if told["came"] != "event":
            return
        word, *more = told["step"].split(" ")
        if word == "begin":
            self.notes, self.sent, self.begun = [], 0, self.begun + 1
        if word in ("off", "on"):
            (self.off.add if word == "off" else self.off.discard)(more[0])
        if told.get("executed", {}).get("fate") == "executed":
            self.executed.add(told["executed"]["request_number"])
        if "note" in told:
            self.notes = [number for number in self.notes if number != told["note"]["note_number"]]
        self.notes += [note["note_number"] for note in told["notes"]]
        self.sent += len(told["notes"])
        if word in ENTERING:
            self.request = told["sent"]["request_number"] if "sent" in told else None
            self.last = self.request or self.last

    # ---- what comes next

    def coming(self):
        """The messages that would come next, each with its step."""
        if self.phase == LOST:
            yield (RESTART, self.association), "hear"
        elif self.phase == WAITING and self.request is None:
            yield None, "pass"
        elif self.phase == WAITING and self.request in self.executed:
            yield (REPLY, self.request), "reply"
        elif self.phase == WAITING:
            yield (REQUEST, self.request), "execute"
        elif self.phase == RESTING:
            for number in self.notes:
                yield (NOTE, number, self.begun), "note" if number == self.notes[0] else f"note {number}"

    def due(self):
        """The step by which the next message comes that is neither lost nor held; None where none does."""
        if self.first:
            return self.first.pop(0)
        for message, step in self.coming():
            self.meet(message)
            if message not in self.lost and message not in self.held:
                self.copy(message)
                return f"execute refuse {self.refused[message]}" if message in self.refused else step
        return None

    def copy(self, message):
        """Has a second copy come behind a message, where one does; that of a request has its reply sent again."""
        if message in self.twice:
            self.twice.discard(message)
            kind, number = message[:2]
            self.first.append("hear" if kind == RESTART else f"{'execute' if kind == REQUEST else kind} {number}")
            if kind == REQUEST:
                self.twice.add((REPLY, number))

    def meet(self, message):
        """What is to go wrong with a message goes wrong when it is the next one for the first time."""
        if message is None or message in self.met:
            return
        self.met.add(message)
        for arm in [arm for arm in self.arms if arm.kind == message[0]]:
            arm.count -= 1
            if arm.count == 0:
                self.arms.remove(arm)
                self.go_wrong(arm, message)

    def go_wrong(self, arm, message):
        """Loses, holds or repeats a message, or has a command of it refused."""
        if arm.verb == "hold":
            self.held.append(message)
            self.was_held.add(message)
        elif arm.verb == "refuse":
            self.refused[message] = arm.place
        else:
            (self.lost if arm.verb == "lose" else self.twice).add(message)

    # ---- what a scenario does with messages

    def arm(self, act):
        """Has something go wrong with a message that is to come."""
        self.arms.append(Arm(act))

    def release(self):
        """Lets what is held come: what is still awaited as it would have, and what isn't first."""
        held, self.held = self.held, []
        for kind, number, *_ in held:
            if kind in (REQUEST, REPLY) and (self.phase != WAITING or number != self.request):
                self.first.append(f"{'execute' if kind == REQUEST else kind} {number}")

    def send_again(self):
        """Has the last request come once more, and its reply behind it, whatever became of them."""
        messages = ((REQUEST, self.last), (REPLY, self.last))
        self.lost.difference_update(messages)
        self.held = [message for message in self.held if message not in messages]
        self.met.update(messages)
        if self.phase != WAITING or self.request in self.executed:
            self.first.append(f"execute {self.last}")

    def is_missed(self):
        """Whether a request that is awaited, or its reply, was lost."""
        return self.phase == WAITING and bool({(REQUEST, self.request), (REPLY, self.request)} & self.lost)

    def is_stuck(self):
        """Whether the call waits for what is lost or held."""
        missing = self.lost | {*self.held}
        if self.phase == LOST:
            return (RESTART, self.association) in missing
        return self.phase == WAITING and bool({(REQUEST, self.request), (REPLY, self.request)} & missing)

    def next_note(self):
        """The step by which the next note may come that isn't there yet."""
        return f"note {self.sent + 1}" if self.notes else "note"


def is_arm(act):
    """Whether a word says what goes wrong with a message that is to come."""
    return act.parts[0] in ("lose", "repeat", "hold", "refuse")


def step_of(act):
    """The step of a plan that a word is, which people do or a timer; None where it is none."""
    verb, *more = act.parts
    if verb in ("off", "on", "flash", "pause", "begin"):
        return " ".join(act.parts)
    if verb == "digits":
        return f"digit {' '.join(more)}"
    if verb == "end":
        return f"end {more[0]} {reading.TONES[more[1]]}"
    return "timer" if verb == "wait" else None
