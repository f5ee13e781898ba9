"""The course of a call: which steps a plan has to have so that what a scenario says is done, and what is on its way arrives by itself behind each word. It asks
for one step after the other and is told what each came to, so it goes by facts alone. It is installed too, so it knows nothing of this repository."""
from collections import namedtuple

from shared.scenarios.on_its_way import LOST, RESTING, OnItsWay, is_arm, step_of
from shared.scenarios.reading import Act

# Between two epochs of a plan all gateways restart.
BETWEEN = "restart"
MOST_STEPS = 1000
# How often what may come by itself is asked for behind a word whose facts aren't there yet.
ROUNDS = 2
# The steps by which something arrives.
ARRIVALS = ("note", "execute", "reply", "pass", "hear")
# A step that was taken: its words, what is told of it, and the place of the word that it is of.
Taken = namedtuple("Taken", "step told act")


class Course:
    """The course of a call of a script by what is done in it. Where it `goes_on`, at the end what is held comes, what of requests and replies was lost is sent
    again, everybody hangs up, and then each timer ends of a state in which the call rests. Where it is `strict` it ends at a word that can't be done."""

    def __init__(self, table, acts, is_strict, goes_on):
        self.states = {state["name"]: state for state in table["state"]}
        self.lines, self.acts = table["lines"], [*acts]
        self.is_strict, self.goes_on = is_strict, goes_on
        self.way = OnItsWay(table["start"])
        self.taken, self.at, self.impossible, self.is_too_long = [], -1, None, False
        # What arrived behind a word of a course that this one may be like.
        self.likely = {}
        self.given = len(self.acts)
        self.work = self.steps()
        self.wanted = next(self.work, None)

    # ---- the steps, each with what it came to

    def taking(self, step):
        """Takes a step; what is told of it."""
        told = yield step
        self.way.see(told)
        self.taken.append(Taken(step, told, self.at))
        return told

    def arriving(self):
        """Lets arrive what is on its way."""
        while (step := self.way.due()) is not None:
            yield from self.taking(step)

    def act(self, act):
        """Does a word; what is told of it where it can't be done."""
        verb = act.parts[0]
        if is_arm(act):
            self.way.arm(act)
        elif verb == "restart":
            yield from self.taking(BETWEEN)
        elif verb == "release":
            self.way.release()
        elif verb == "resend" and self.way.last is not None:
            self.way.send_again()
        else:
            told = yield from self.taking("execute" if verb == "resend" else step_of(act))
            return told if told["came"] == "idle" else None
        return None

    def does(self, act):
        """Does a word, and lets arrive what is on its way then; whether it could be done."""
        told = yield from self.act(act)
        if told is not None and self.is_strict:
            self.impossible = told
            return False
        if not is_arm(act):
            yield from self.arriving()
        return True

    def adds(self, *parts):
        """Does a word that the scenario doesn't have, as it goes on."""
        self.at += 1
        self.acts.append(Act(parts, self.acts[self.given - 1].step + 1 if self.given else 0))
        yield from self.does(self.acts[-1])

    def mending(self):
        """What is held comes, and what of requests and replies was lost is sent again."""
        while self.way.held or self.way.is_missed():
            yield from self.adds("release" if self.way.held else "resend")

    def hanging_up(self):
        """Who is off hook hangs up."""
        for line in self.lines:
            if line in self.way.off:
                yield from self.adds("on", line)
                yield from self.mending()

    def going_on(self):
        """The usual way of going on at the end."""
        yield from self.mending()
        yield from self.hanging_up()
        seen = set()
        while self.way.phase == RESTING and "timer" in self.states[self.way.state] and self.way.state not in seen:
            seen.add(self.way.state)
            yield from self.adds("wait")
            yield from self.mending()

    def steps(self):
        """All steps."""
        for self.at, act in enumerate([*self.acts]):
            if not (yield from self.does(act)):
                return
        if self.goes_on:
            yield from self.going_on()

    # ---- what is told

    def take(self, told):
        """Takes what is told of the step that is wanted."""
        try:
            self.wanted = self.work.send(told)
        except StopIteration:
            self.wanted = None
        if self.wanted is not None and len(self.taken) >= MOST_STEPS:
            self.wanted, self.is_too_long = None, True

    def follow_plan(self, steps, told):
        """Takes what is told of a plan that begins with the steps that were taken."""
        known = len(self.taken)
        self.follow(steps[known:], told[known:])

    def follow(self, steps, told):
        """Takes what is told of steps as far as they are those that are wanted. One that was idle, or came to nothing but a reply that is sent again, is passed
        over where it isn't; what stands behind any other such step is of no use."""
        for step, one in zip(steps, told):
            if self.wanted is None:
                return
            if step == self.wanted:
                self.take(one)
            elif one["came"] != "idle" and one.get("executed", {}).get("fate", "executed") == "executed":
                return

    def begin_as(self, other, count):
        """Takes what is told of the first words of another course, so many, with which this one begins too."""
        for taken in other.taken:
            if taken.act >= count or self.wanted != taken.step or self.at != taken.act:
                return
            self.take(taken.told)

    def be_like(self, other):
        """Guesses by what arrived behind the words of another course."""
        for taken in other.taken:
            self.likely.setdefault(other.acts[taken.act], []).extend(word for word in taken.step.split(" ")[:1] if word in ARRIVALS)

    # ---- what may come

    def guessed(self):
        """Steps that may be wanted from here on, the first of which is."""
        yield self.wanted
        yield from self.arriving_guessed(self.way.phase == LOST)
        for act in self.acts[self.at + 1 : self.given]:
            verb = act.parts[0]
            step = BETWEEN if verb == "restart" else step_of(act)
            if step is None:
                return
            yield step
            yield from self.likely_behind(act) if act in self.likely else self.arriving_guessed(verb == "restart")
        if self.goes_on:
            yield from self.hanging_up_guessed()

    def hanging_up_guessed(self):
        """What may be wanted as everybody hangs up."""
        for line in self.lines if self.at < self.given else ():
            yield f"on {line}"
            yield from self.arriving_guessed(False)

    def likely_behind(self, act):
        """What arrived behind a word of a course that this one may be like."""
        if not self.way.is_stuck() or act.parts[0] == "restart":
            yield from (self.way.next_note() if word == "note" else word for word in self.likely[act])

    def arriving_guessed(self, is_lost):
        """What may come by itself behind a word."""
        if is_lost:
            yield "hear"
        if self.way.is_stuck() and not is_lost:
            return
        for _ in range(ROUNDS):
            yield from (self.way.next_note(), "execute", "reply", "pass")

    def planned(self):
        """The steps of a plan that tells more of this course: those that were taken, and some that may come."""
        taken = [taken.step for taken in self.taken]
        return [*taken, *list(self.guessed())[: max(1, MOST_STEPS - len(taken))]]

    # ---- what was done

    def exact(self):
        """The steps that were taken."""
        return [taken.step for taken in self.taken]

    def of_act(self, place):
        """What was taken at a word."""
        return [taken for taken in self.taken if taken.act == place]
