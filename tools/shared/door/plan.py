"""`mgtool plan`: scenarios as a plan, a call for each, with the steps that `mgtool test` takes. It is installed too, so it knows nothing of this repository."""
import sys

from shared.door import forms, scenario_files
from shared.mistakes.findings import printable
from shared.mistakes.near import nearest
from shared.scenarios import outcomes, planned, reading


def refused(report):
    """Says on standard error why no scenario is run, since a plan would stand on standard output; gives the status."""
    print(forms.text(report), end="", file=sys.stderr)
    return report.status


def meant(name, names):
    """What is said of the name that may have been meant: the nearest, or the first that has this in it."""
    found = nearest(name, tuple(names)) or next((one for one in names if name.lower() in one.lower()), None)
    return f" (did you mean {found!r}?)" if found else ""


def wanted(asked, scenarios):
    """The scenarios that are asked for by their names, or by a word of these; all where none is."""
    names = [one.name for one in scenarios]
    for name in asked.names:
        if name not in names:
            asked.refuse(f"no scenario has the name {name!r}{meant(name, names)}")
    if asked.word is not None and not any(asked.word in name for name in names):
        asked.refuse(f"no scenario has {asked.word!r} in its name")
    if not asked.names and asked.word is None:
        return scenarios
    return [one for one in scenarios if one.name in asked.names or asked.word is not None and asked.word in one.name]


def done(asked, find):
    """Writes the plan that is asked for, and says what of it couldn't be done; gives the status."""
    files, report = scenario_files.taken(asked, find)
    if report is not None:
        return refused(report)
    given = files[-1]
    scenarios = wanted(asked, reading.read(given.text)[0])
    with scenario_files.runner(files, find) as runner, scenario_files.bar() as tell:
        courses = outcomes.as_they_stand(runner, scenarios, tell)
    print(planned.text(printable(given.name), scenarios, courses, runner.table), end="")
    return scenario_files.tell_undone(scenarios, courses, given)
