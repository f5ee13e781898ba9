"""`mgtool test`: what people do and what has to come of it, in a file of scenarios, as the proved program runs it, and the intents of that file. It is
installed too, so it knows nothing of this repository."""
import json

from shared import asking, explained
from shared.door import declarations, forms, junit, places, scenario_files
from shared.door.declarations import JSON, JUNIT, TEXT
from shared.scenarios import intended, outcomes, reading, told, written

PASSED, FAILED = 0, 1


def refused(asked, report):
    """Tells why no scenario is run; gives the status."""
    if asked.format == JSON:
        value = {"format": told.FORMAT, "status": report.status, **({"line": report.line} if report.line else {}), "passed": 0, "failed": 0}
        print(json.dumps({**value, "scenarios": [], "diagnostics": [*map(forms.record, report.diagnostics)]}))
    elif asked.format == JUNIT:
        print(junit.written([report]), end="")
    else:
        forms.write_text(report)
    return report.status


def wanted(asked, scenarios, intents):
    """The scenarios and the intents that are asked for by a word of their names."""
    found, of_states = [one for one in scenarios if asked.word is None or asked.word in one.name], intended.asked_for(intents, asked.word)
    if asked.word is not None and not found and not of_states:
        asked.refuse(f"no scenario has {asked.word!r} in its name")
    return found, of_states


def write(asked, found, intents, given):
    """Writes what scenarios and intents come to in the form that is asked for; gives the status."""
    as_asked = {JSON: told.as_json, JUNIT: told.as_junit}.get(asked.format, told.as_text)
    print(as_asked(found, intents, given.name, places.Text(given.text)), end="")
    return FAILED if told.counts(found, intents)[1] else PASSED


def intents_of(files, tables, find):
    """The intents of a file, judged by the facts of a yes: script, certificate and file of scenarios."""
    script, certificate, given = files
    if not tables:
        return []
    _, page = explained.told(find("mgexplain"), [], [script.text, certificate.text])
    return intended.judged(page, script, given, tables)


def record(asked, runner, scenarios, given, tell):
    """Writes what came into the file that is named; tells what couldn't be done, and gives the status."""
    with asking.written(None if asked.target == declarations.STANDARD else asked.target) as file:
        courses = outcomes.as_they_stand(runner, scenarios, tell)
        file.write(written.recorded(given.text, [*zip(scenarios, courses)], runner.table).decode())
    return scenario_files.tell_undone(scenarios, courses, given)


def run(asked, runner, files, find):
    """Runs the scenarios of a file, and tells what they and the intents come to; gives the status."""
    given = files[-1]
    scenarios, tables = reading.read(given.text)
    found, intents = wanted(asked, scenarios, intents_of(files, tables, find))
    with scenario_files.bar() as tell:
        if asked.target is not None:
            return record(asked, runner, found, given, tell)
        how = outcomes.with_faults if asked.has_faults else outcomes.plain
        came = [*how(runner, found, tell)]
    return write(asked, came, intents, given)


def tested(asked, find):
    """Runs the scenarios of the files that are asked for; gives the status."""
    files, report = scenario_files.taken(asked, find)
    if report is not None:
        return refused(asked, report)
    with scenario_files.runner(files, find) as runner:
        return run(asked, runner, files, find)


def done(asked, find):
    """Runs what is asked for; gives the status."""
    if asked.target is not None and asked.has_faults:
        asked.refuse("--record and --faults don't go together")
    try:
        return tested(asked, find)
    except asking.Stopped as stopped:
        if asked.format in (None, TEXT):
            raise
        return refused(asked, forms.report_of_stop(asked.script, stopped))
