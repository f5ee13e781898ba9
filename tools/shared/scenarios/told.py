"""How it is told what scenarios and intents come to: as lines with the ladder up to what is wrong, as one JSON value, or as JUnit XML. It is installed too, so
it knows nothing of this repository."""
import json
from xml.sax.saxutils import escape, quoteattr

from shared import ladder_rows, ladder_words
from shared.door import diagnostics, forms
from shared.door.diagnostics import error
from shared.door.junit import plain
from shared.scenarios import intended, judging
from shared.scenarios.on_its_way import NOTE, REPLY, REQUEST
from shared.scenarios.written import own_rules, step_text

FORMAT = 1
# The kinds of messages, by the keys by which steps tell that they come to their end.
KINDS = {"note": NOTE, "executed": REQUEST, "reply": REPLY}


def steps_up_to(outcome):
    """What is told of the steps up to what is wrong."""
    return [taken.told for taken in outcome.course.taken[: outcome.flaw.count]]


def where(outcome):
    """In which scenario something is wrong, in which variant, and at which step."""
    flaw, course = outcome.flaw, outcome.course
    of = f"scenario `{outcome.scenario.name}`" + (f", {outcome.variant.name}" if outcome.variant else "")
    if flaw.rule.startswith(judging.AT_END):
        return f"{of}, at the end"
    if flaw.rule == judging.DO:
        return f"{of}, step {course.acts[course.at].step + 1}"
    if flaw.rule in (judging.STEPS, judging.REPORT) or not flaw.count:
        return of
    return f"{of}, step {course.acts[course.taken[flaw.count - 1].act].step + 1}"


def diagnostic(outcome, name, text):
    """What is wrong, as an error at its place in the file."""
    return error(name, text.place(outcome.flaw.at), outcome.flaw.rule, f"{where(outcome)}: {outcome.flaw.says}")


def is_in_transit(outcome, place, key, number):
    """Whether a message that was sent at a step, and came to no end up to what is wrong, is in transit: it was held, or comes to its end later."""
    steps = [taken.told for taken in outcome.course.taken]
    begins = [at for at, told in enumerate(steps) if told["step"] == "begin" and told["came"] == "event"]
    begun, end = sum(at <= place for at in begins), next((at for at in begins if at > place), len(steps))
    message = (KINDS[key], number, begun) if key == NOTE else (KINDS[key], number)
    return message in outcome.course.way.was_held or any(ladder_rows.is_end(told, key, number) for told in steps[place + 1 : end])


def ladder(outcome):
    """The ladder of the messages up to what is wrong."""
    found = ladder_rows.rows(steps_up_to(outcome), lambda place, key, number: is_in_transit(outcome, place, key, number))
    rows = (text for row in found for text in ladder_words.written(row))
    return [ladder_words.columns("the call", "", "its gateway"), *rows]


def to_paste(outcome):
    """A variant as a scenario of its own, up to what is wrong, with what has to be so at the end; in lines, and none of a scenario as it stands."""
    if outcome.variant is None:
        return []
    course, flaw = outcome.course, outcome.flaw
    last = course.taken[flaw.count - 1].act if flaw.count and not flaw.rule.startswith(judging.AT_END) else len(course.acts) - 1
    words = {}
    for act in course.acts[: last + 1]:
        words.setdefault(act.step, []).append(" ".join(act.parts))
    name = f"{outcome.scenario.name}, {outcome.variant.name}".replace("`", "")
    lines = [step_text(each, None) for each in words.values()]
    if flaw.rule.startswith(judging.AT_END):
        lines[-1:] = [step_text([*words.values()][-1], outcome.scenario.rules.at_end.values)]
    return ["[[scenario]]", f"name = {json.dumps(name)}", *own_rules(outcome.scenario), "steps = [", *(f"  {line}," for line in lines), "]"]


def headline(outcome):
    """Whether a scenario holds, in a line."""
    of = "" if outcome.count is None else f", {outcome.count} variants" if not outcome.failed else f", {outcome.failed} of {outcome.count} variants"
    return f"{'failed' if outcome.flaw else 'ok':8}{outcome.scenario.name}{of}"


def counts(outcomes, intents):
    """How many passed and how many failed: scenarios, or their variants, and states with their intents."""
    failed = sum(outcome.failed if outcome.failed is not None else bool(outcome.flaw) for outcome in outcomes) + sum(bool(one.told) for one in intents)
    return sum(outcome.count or 1 for outcome in outcomes) + len(intents) - failed, failed


def lines_of(outcome, name, text):
    """The lines on a scenario."""
    yield headline(outcome)
    if outcome.flaw:
        yield diagnostics.line(diagnostic(outcome, name, text))
        yield from ("", *ladder(outcome), "")
        if paste := to_paste(outcome):
            yield from ("  As a scenario of its own:", "", *paste, "")


def as_text(outcomes, intents, name, text):
    """All as lines."""
    passed, failed = counts(outcomes, intents)
    lines = [line for outcome in outcomes for line in lines_of(outcome, name, text)]
    lines += [line for one in intents for line in intended.lines_of(one)]
    return "".join(f"{line}\n" for line in [*lines, f"{passed} passed, {failed} failed"])


def record(outcome, name, text):
    """What a scenario comes to as an object."""
    place = text.place(outcome.scenario.at)
    found = {"name": outcome.scenario.name, "at_line": place.line, "at_column": place.column, "outcome": "failed" if outcome.flaw else "passed"}
    if outcome.count is not None:
        found |= {"variants": outcome.count, "failed_variants": outcome.failed}
    if outcome.flaw:
        found |= {"diagnostic": forms.record(diagnostic(outcome, name, text)), "ladder": ladder(outcome)}
    if outcome.variant:
        found |= {"variant": outcome.variant.name, "scenario": "\n".join(to_paste(outcome))}
    return found


def as_json(outcomes, intents, name, text):
    """All as one JSON value."""
    passed, failed = counts(outcomes, intents)
    value = {"format": FORMAT, "status": int(failed > 0), "passed": passed, "failed": failed}
    value |= {"scenarios": [record(outcome, name, text) for outcome in outcomes], "intents": [*map(intended.record, intents)], "diagnostics": []}
    return json.dumps(value) + "\n"


def case(outcome, name, text):
    """A scenario as a test of JUnit XML."""
    shown = f'<testcase classname="mgtool.test" name={quoteattr(plain(outcome.scenario.name))} file={quoteattr(plain(name))}>'
    if not outcome.flaw:
        return f"{shown}<system-out>{escape(plain(headline(outcome)))}</system-out></testcase>\n"
    told, lines = diagnostic(outcome, name, text), "\n".join([*lines_of(outcome, name, text)])
    failure = f"<failure type={quoteattr(told.rule)} message={quoteattr(plain(told.text))}>{escape(plain(lines))}</failure>"
    return f"{shown}{failure}<system-out>{escape(plain(headline(outcome)))}</system-out></testcase>\n"


def as_junit(outcomes, intents, name, text):
    """All as JUnit XML, a test for each scenario and for the intents of each state."""
    failed = sum(bool(outcome.flaw) for outcome in outcomes) + sum(bool(one.told) for one in intents)
    head = f'tests="{len(outcomes) + len(intents)}" failures="{failed}" errors="0"'
    cases = "".join([*(case(outcome, name, text) for outcome in outcomes), *(intended.case(one, name) for one in intents)])
    return f'<?xml version="1.0" encoding="UTF-8"?>\n<testsuites {head}>\n<testsuite name="mgtool.test" {head}>\n{cases}</testsuite>\n</testsuites>\n'
