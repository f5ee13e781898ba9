"""A draft's way from No to No by small questions. An answer of `mgexplain` has one configuration that no entry has, so it takes a question for each that is put
in. Asked about the whole certificate each time, most of the time goes to entries that are closed: each of their points breaks no obligation, and each result
of its steps is in some entry; they stay so, whatever is put in later. So here a question is about a front: entries that aren't known to be closed, and behind
them the others of the states to which their steps may lead, and of those in which a call opens and restarts. At an entry of its front the answer is that of
the whole certificate, so the draft is what asking about all of it each time comes to.

A draft that takes long asks about several fronts side by side. What an entry lacks is kept until it is the first that isn't closed; all that the entries
before it lack has been put in by then, so what they and it are known to lack stands behind its front too, and the answer is the next that it lacks. The
last question is about the whole. It is installed too, so it knows nothing of this repository."""
import json
import os
import time
from collections import namedtuple
from concurrent.futures import ThreadPoolExecutor

from shared import certificates

# How many entries a front has at most, how many fronts are asked about side by side at most, and after how many seconds: questions about later entries may turn
# out to have been asked for nothing, so a short draft and a busy machine do without.
LENGTH, MOST_FRONTS, PATIENCE = 16, 4, 1
# How the questions about an entry ended: all that its steps lead to is known, or a point of it breaks an obligation.
CLOSED, BROKEN = "closed", "broken"
# What a draft comes to: the last page, the entries that it is about, how many configurations were put in, whether what the page says to put in was put in
# before, or finds no room, and whether all that calls come to is there, though the page may be a No.
Followed = namedtuple("Followed", "page entries count is_again is_full is_whole", defaults=(False,))


def lacking(page):
    """The configuration of a page that no entry has; nothing where it isn't about one."""
    return page.get("uncovered", page.get("step", {}).get("result"))


def alone(script, told):
    """The entry that has this configuration and no other."""
    return certificates.laid_out(script, told["state"], {part["component"]: [part["value"]] for part in told["parts"]})


class Held:
    """An entry of a draft with its sets, the row that a certificate has of it, and what is known of it: the configurations that it is known to lack, and how
    the questions about it ended, which is none as long as they haven't."""

    def __init__(self, script, entry):
        self.entry, self.state, self.values = entry, entry["state"], certificates.sets(script, entry)
        self.row, self.lacking, self.end = certificates.row(entry), [], None

    def lacks(self, told):
        """The parts of a configuration of its state that it doesn't have, two of them at most."""
        found = []
        for part in told["parts"]:
            if part["value"] not in self.values[part["component"]]:
                found.append(part)
                if len(found) == 2:
                    break
        return found

    def has(self, told):
        """Whether it has a configuration."""
        return self.state == told["state"] and not self.lacks(told)


def targets(state):
    """The states to which the steps of a state's points may lead."""
    notes = (target for kinds in state.get("on", {}).values() for target in kinds.values())
    return {state["name"], *(state[key] for key in ("ok", "fault", "timer") if key in state), *notes}


class Draft:
    """A draft of a script, from entries on. `ask` gives the page of a certificate's text; `tell` is called with how many entries there are, and how many
    configurations were put in."""

    def __init__(self, script, entries, is_wide, ask, tell):
        self.script, self.is_wide, self.ask, self.tell = script, is_wide, ask, tell
        self.held = [Held(script, entry) for entry in entries]
        self.orders = {path: order for path, _, order, _ in certificates.components(script, {})}
        self.targets = {state["name"]: targets(state) for state in script["state"]}
        self.count, self.first, self.begun = 0, None, time.monotonic()
        self.most_fronts = max(1, min(MOST_FRONTS, len(os.sched_getaffinity(0)) - round(os.getloadavg()[0])))

    # ---- questions

    def question(self, front):
        """The text of a certificate that asks about a front: it, the entries that have to be there for its answer to be that of the whole, and what those up to
        its first entry are known to lack. None where a state has no room for these."""
        states = {self.script["start"], self.script["restart"]}.union(*(self.targets[held.state] for held in front))
        ahead, found = {*front}, []
        asked = [*front, *(held for held in self.held if held.state in states and held not in ahead)]
        for held in self.held[: self.held.index(front[0]) + 1]:
            found += (told for told in held.lacking if told["state"] in states)
        counts = [sum(held.state == state for held in asked) + sum(told["state"] == state for told in found) for state in states]
        if found and max(counts) > certificates.ENTRIES:
            return None
        return certificates.of_rows([*(held.row for held in asked), *(certificates.row(alone(self.script, told)) for told in found)])

    def learn(self, front, page):
        """Keeps what a page says of the entries at its front: those ahead of the one that it names are closed. That one lacks a configuration, or breaks an
        obligation; so it counts too where the answer isn't one that fits, and then the whole is asked about."""
        told = lacking(page)
        is_known = told is not None and self.has(told)
        if "uncovered" in page and not is_known:
            self.first = told
            return
        place = page["point"]["entry_place"] if "point" in page else len(front)
        if "uncovered" in page:
            place = 0
        for held in front[:place]:
            held.end = CLOSED
        if place < len(front) and (told is None or is_known or told in front[place].lacking):
            front[place].end = BROKEN
        elif place < len(front):
            front[place].lacking.append(told)

    def ask_fronts(self, pool):
        """Asks about the first entries of which not all is known, each with some of those behind them of which nothing is."""
        count = self.most_fronts if time.monotonic() - self.begun >= PATIENCE else 1
        open_ones = [held for held in self.held if held.end is None]
        others = [held for held in open_ones[count:] if not held.lacking]
        fronts = [[held, *others[place::count][: LENGTH - 1]] for place, held in enumerate(open_ones[:count])]
        asked = [(front, text) for front in fronts if (text := self.question(front)) is not None]
        for (front, _), page in zip(asked, pool.map(lambda one: self.ask(one[1]), asked)):
            self.learn(front, page)

    def has(self, told):
        """Whether some entry has a configuration."""
        return any(held.has(told) for held in self.held)

    def next_lacking(self, pool):
        """The configuration that is lacking first; None where an obligation is broken before, or no entry lacks one."""
        while self.first is None or self.has(self.first):
            held = next((held for held in self.held if held.lacking or held.end != CLOSED), None)
            if held is None:
                return None
            while held.lacking and self.has(held.lacking[0]):
                del held.lacking[0]
            if held.lacking:
                return held.lacking[0]
            if held.end == BROKEN:
                return None
            if held.end is None:
                self.ask_fronts(pool)
        return self.first

    # ---- what is put in

    def widened(self, held, part):
        """An entry that has a value more of one component, in the place of another; None where it has more than one configuration more."""
        path = part["component"]
        values = {**held.values, path: [value for value in self.orders[path] if value in held.values[path] or value == part["value"]]}
        if certificates.product(values) != certificates.product(held.values) + 1:
            return None
        return Held(self.script, certificates.laid_out(self.script, held.state, values))

    def has_room(self, state):
        """Whether a state may have another entry."""
        return sum(held.state == state for held in self.held) < certificates.ENTRIES

    def put(self, told):
        """Puts a configuration in, and no other beside it: in the place of the first entry that lacks one value of it, where that gets no other one, else
        behind the last. Says whether there was room."""
        for place, held in enumerate(self.held):
            if held.state == told["state"] and len(lacks := held.lacks(told)) == 1:
                if (wider := self.widened(held, lacks[0])) is not None:
                    self.held[place] = wider
                    return True
                break
        if not self.has_room(told["state"]) and self.is_wide:
            fewer = certificates.joined(self.script, [held.entry for held in self.held])
            self.held = [Held(self.script, entry) for entry in fewer]
        if not self.has_room(told["state"]):
            return False
        self.held.append(Held(self.script, alone(self.script, told)))
        return True

    def put_all(self, told, seen, pool):
        """Puts a configuration in, and what is lacking then, until nothing is. Says whether one was put in before, and whether one found no room."""
        while told is not None:
            self.tell(len(self.held), self.count)
            wanting = json.dumps(told)
            if wanting in seen:
                return True, False
            seen.add(wanting)
            if not self.put(told):
                return False, True
            self.count += 1
            told = self.next_lacking(pool)
        return False, False

    def followed(self):
        """Puts in what is lacking until an answer says nothing to put in."""
        seen, is_again, is_full = set(), False, False
        with ThreadPoolExecutor(self.most_fronts) as pool:
            while True:
                self.tell(len(self.held), self.count)
                page = self.ask(certificates.of_rows(held.row for held in self.held))
                told = lacking(page)
                if told is None or is_again or is_full:
                    return Followed(page, [held.entry for held in self.held], self.count, is_again, is_full)
                self.learn(self.held, page)
                is_again, is_full = self.put_all(told, seen, pool)
