"""The variants of a scenario in which one thing goes wrong: each message is lost, comes twice and comes late, each command of each request is refused, the
gateway restarts behind each word, and each telephone is lifted or put down a word earlier and later. Which messages there are is told by the facts of the scenario's
own run. It is installed too, so it knows nothing of this repository."""
from collections import namedtuple

from shared.mistakes.scenario_rules import MOST_RESTARTS
from shared.scenarios.on_its_way import NOTE, REPLY, REQUEST, is_arm
from shared.scenarios.reading import Act, written

HOOKS, ON_LINE = ("off", "on"), ("off", "on", "flash", "digits", "pause", "end")
# A variant: what goes wrong, what is done, and with how many words it begins as the scenario does.
Variant = namedtuple("Variant", "name acts same")


def kind_of(told):
    """Which message arrives at a step; none where none does."""
    if "executed" in told:
        return REQUEST
    return REPLY if "reply" in told else NOTE if "note" in told else None


def arriving(course, place):
    """The messages that arrive behind a word, each with its kind, its number among those of that kind, from 1, and what is told of it."""
    counts = {}
    for taken in course.of_act(place):
        kind = kind_of(taken.told)
        if kind is not None:
            counts[kind] = counts.get(kind, 0) + 1
            yield kind, counts[kind], taken.told


def arm(step, *parts):
    """A word by which something goes wrong; a number of 1 at its end isn't written."""
    return Act(tuple(map(str, parts[:-1] if parts[-1] == 1 else parts)), step)


def put(acts, place, *words):
    """What is done, with words put in before a place."""
    return [*acts[:place], *words, *acts[place:]]


def late_by(acts, place):
    """The place behind the next word that is done and no message."""
    return next((later + 1 for later in range(place + 1, len(acts)) if not is_arm(acts[later])), len(acts))


def of_message(acts, place, kind, number):
    """The variants in which a message is lost, comes twice, or comes late: a word later."""
    step = acts[place].step
    for verb in ("lose", "repeat"):
        word = arm(step, verb, kind, number)
        yield word, put(acts, place, word)
    word, behind = arm(step, "hold", kind, number), late_by(acts, place)
    yield word, put(put(acts, behind, Act(("release",), acts[behind - 1].step)), place, word)


def of_word(course, place):
    """The variants in which something goes wrong with what a word leads to."""
    acts = course.acts[: course.given]
    for kind, number, told in arriving(course, place):
        yield from of_message(acts, place, kind, number)
        commands = told["executed"]["request"] if kind == REQUEST and told["executed"]["fate"] == "executed" else []
        words = [arm(acts[place].step, "refuse", command["command_place"], number) for command in commands]
        yield from ((word, put(acts, place, word)) for word in words)


def are_apart(first, second):
    """Whether two words can change places, so that a telephone is lifted or put down earlier or later."""
    if is_arm(first) or is_arm(second) or not {first.parts[0], second.parts[0]} & {*HOOKS}:
        return False
    return not (first.parts[0] in ON_LINE and second.parts[0] in ON_LINE and first.parts[1] == second.parts[1])


def swapped(acts, place):
    """What is done with two words in each other's place, each in the step of the other."""
    first, second = acts[place : place + 2]
    return [*acts[:place], second._replace(step=first.step), first._replace(step=second.step), *acts[place + 2 :]]


def of_course(course):
    """All variants of a course that was run: first as it stands."""
    acts = course.acts[: course.given]
    yield Variant("as it stands", acts, len(acts))
    for place, act in enumerate(acts):
        where = f"step {act.step + 1}"
        yield from (Variant(f"with `{written(word)}` before `{written(act)}` of {where}", done, place) for word, done in of_word(course, place))
        if sum(one.parts[0] == "restart" for one in acts) < MOST_RESTARTS and not is_arm(act):
            yield Variant(f"with `restart` behind `{written(act)}` of {where}", put(acts, place + 1, Act(("restart",), act.step)), place + 1)
        if place + 1 < len(acts) and are_apart(act, acts[place + 1]):
            yield Variant(f"with `{written(acts[place + 1])}` before `{written(act)}` of {where}", swapped(acts, place), place)
