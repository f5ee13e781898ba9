"""Whether what came is what a scenario expects: its expectations beside the facts that `mgexplain` tells of a step. Nothing is decided of what a call does:
what the facts don't have can't be judged, and that is a failure. It is installed too, so it knows nothing of this repository."""
from collections import namedtuple

from shared import run_words
from shared.scenarios.reading import ALWAYS, AT_END, HEARS, KEYS, PHASE, STATE, TONES_KEY

DO, REPORT, STEPS = "do", "report", "steps"
UNTOLD = "the facts don't say who hears whom, so this can't be judged; a later mgexplain tells it"
# What is wrong: by which key, the byte of the file at which that stands, what is said of it, and how many of the steps that were taken it is about.
Flaw = namedtuple("Flaw", "rule at says count")


def opening(start):
    """What is so before the first step: a call opens at rest in the start state, nothing plays, and nobody hears anybody."""
    return {"after": {"state": start, "phase": "resting"}, "plays": [], "hears": []}


def hearing(told):
    """Who is heard by whom after a step, as (from, to); none where it isn't told."""
    return frozenset((one["from"], one["to"]) for one in told["hears"]) if "hears" in told else None


def playing(told):
    """The tones on each line on which some play after a step."""
    return {one["on_line"]: sorted(one["signals"]) for one in told["plays"]}


def brief(signal):
    """A signal as a scenario writes it."""
    return signal.partition("/")[2]


def written_pairs(pairs):
    """Who hears whom, as a scenario writes it."""
    both = sorted({tuple(sorted(pair)) for pair in pairs if pair[::-1] in pairs})
    one = sorted(pair for pair in pairs if pair[::-1] not in pairs)
    return [*("-".join(pair) for pair in both), *(">".join(pair) for pair in one)]


def said_pairs(pairs):
    """Who hears whom in a sentence."""
    return ", ".join(f"`{text}`" for text in written_pairs(pairs)) or "nobody"


def said_tones(tones):
    """What plays in a sentence."""
    return ", ".join(f"`{line}` {' '.join(map(brief, signals))}" for line, signals in sorted(tones.items())) or "none"


def value(key, told):
    """What is told after a step of what a key expects."""
    return told["after"][key] if key in (STATE, PHASE) else hearing(told) if key == HEARS else playing(told)


def difference(expected, told):
    """The first key whose expectation doesn't hold after a step, and what is said of it; none where all hold."""
    for key in KEYS:
        if key not in expected.values:
            continue
        wanted, found = expected.values[key], value(key, told)
        if key == HEARS and found is None:
            return key, UNTOLD
        if key == STATE and found not in wanted:
            return key, f"state {' or '.join(f'`{name}`' for name in wanted)} is expected, and it is `{found}`"
        if key == PHASE and found != wanted:
            return key, f"the call is expected to be {wanted}, and is {found}"
        if key == HEARS and found != wanted:
            return key, f"who hears whom is expected to be {said_pairs(wanted)}, and is {said_pairs(found)}"
        if key == TONES_KEY and found != wanted:
            return key, f"the tones are expected to be {said_tones(wanted)}, and are {said_tones(found)}"
    return None


def forbidden(always, told):
    """The first key of what holds at each step that doesn't hold after one, and what is said of it; none where all hold."""
    found = hearing(told)
    for key, (pairs, _) in always.items():
        if found is None:
            return key, UNTOLD
        wrong = found & pairs if key == "never_hear" else found - pairs
        if wrong:
            first, second = min(wrong)
            return key, f"{second} hears {first}" + ("" if key == "never_hear" else ", and only others may be heard")
    return None


def broken(rules, taken):
    """What of the steps that were taken breaks what holds at each, at the first that does; none where none does."""
    for count, one in enumerate(taken, 1):
        if found := forbidden(rules.always, one.told):
            key, says = found
            return Flaw(f"{ALWAYS} {key}", rules.always[key][1], f"in state `{one.told['after']['state']}` {says}", count)
    return None


def ended(rules, taken, table):
    """What isn't as it has to be at the end of a variant; none where all is."""
    if rules.at_end is None:
        return None
    told = taken[-1].told if taken else opening(table["start"])
    found = difference(rules.at_end, told)
    return Flaw(f"{AT_END} {found[0]}", rules.at_end.places[found[0]], found[1], len(taken)) if found else None


def undone(course, scenario):
    """The word that couldn't be done, or that the call has too many steps; none where all was done."""
    if course.impossible is not None:
        act = course.acts[course.at]
        says = f"`{' '.join(act.parts)}` can't be done: {run_words.idle(course.impossible)}"
        return Flaw(DO, scenario.steps[act.step].at, says, len(course.taken))
    if course.is_too_long:
        return Flaw(STEPS, scenario.at, "its call has more steps than the 1,000 that a plan takes", len(course.taken))
    return None


def behind(course, step):
    """How many steps were taken up to the end of a step of the scenario."""
    return sum(course.acts[taken.act].step <= step for taken in course.taken)


def reached(scenario, course, table):
    """The steps of a scenario that its course came to the end of, each with what is told at its end, and with how many steps were taken up to there."""
    end = course.acts[course.at].step if course.impossible is not None or course.is_too_long else len(scenario.steps)
    for place, step in enumerate(scenario.steps[:end]):
        count = behind(course, place)
        yield step, course.taken[count - 1].told if count else opening(table["start"]), count


def compared(scenario, course, table):
    """The first expectation of a scenario that doesn't hold, step by step; none where all hold. Of a course that ended early the steps before."""
    for step, told, count in reached(scenario, course, table):
        if found := difference(step.expected, told):
            return Flaw(found[0], step.expected.places[found[0]], found[1], count)
    return undone(course, scenario)


def reported(scenario, course, line):
    """Whether the report's line is the one that is expected."""
    found = line["line"].partition(" ")[2].partition(" ")[2]
    if scenario.report in (None, found):
        return None
    return Flaw(REPORT, scenario.report_at, f"the report is expected to be `{scenario.report}`, and is `{found}`", len(course.taken))


def of_scenario(scenario, course, table):
    """What is wrong with a scenario as it stands, first of its steps, then of what holds at each; none where nothing is."""
    return compared(scenario, course, table) or broken(scenario.rules, course.taken)
