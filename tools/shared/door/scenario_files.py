"""The files of a command that runs scenarios, and what runs these: the script, its certificate and the file of scenarios, of which nothing is run where one of
them can't be taken, has mistakes, or is a No. It is installed too, so it knows nothing of this repository."""
import contextlib
import sys
from types import SimpleNamespace

from shared import asking, progress, scripts
from shared.door import check, declarations, diagnostics, inputs, intent_mistakes, kept, places
from shared.door.diagnostics import Place, Report, error
from shared.door.inputs import CERTIFICATE, SCENARIOS, SCRIPT
from shared.mistakes import scenario_rules
from shared.scenarios import judging, outcomes, running, told

SUFFIX = ".scenarios.toml"
# How wide the bar is that says how many are at their ends.
BAR = 40
# How the script is checked.
PLAINLY = SimpleNamespace(is_strict=False, pieces=None)


def beside(script):
    """The name of the file of scenarios beside a script of this name."""
    return script.removesuffix(kept.SUFFIX) + SUFFIX


def mistaken(script, given):
    """The mistakes of a file of scenarios as errors, each place once: those of the scenarios, and those of the intents."""
    found = [*of_scenarios(script, given)]
    places_told = {one.place for one in found}
    found += [one for one in intent_mistakes.mistakes(script, given) if one.place not in places_told]
    return sorted(found, key=lambda one: one.place)


def of_scenarios(script, given):
    """The mistakes of scenarios as errors."""
    for one in scenario_rules.mistakes(script.text, given.text):
        path = f"{one.path}: " if one.path else ""
        meant = f" (did you mean `{one.meant}`?)" if one.meant is not None else ""
        rule = f"{one.of} fault {one.fault_number} {one.fault_name}"
        yield error(given.name, Place(one.at_line, one.at_column), rule, f"{path}{one.says}{meant}")


def fault_of(script, certificate, given, find):
    """What a check comes to where no scenario can be run; none where one can."""
    report = check.report(PLAINLY, script, certificate, find)
    if found := [*mistaken(script, given)]:
        return report._replace(status=asking.FILES, line="", diagnostics=[*(report.diagnostics if report.status == asking.FILES else []), *found])
    return report if report.status else None


def taken(asked, find):
    """The files that a command asks for: script, certificate and file of scenarios; and what the check comes to where no scenario of them can be run, which is
    none where one can."""
    if asked.scenarios is None and asked.script == declarations.STANDARD:
        asked.refuse("the scenarios of a script from standard input have to be named, by --scenarios")
    names = {SCRIPT: asked.script, CERTIFICATE: asked.certificate, SCENARIOS: asked.scenarios or beside(asked.script)}
    given, wrong = inputs.read_all(names)
    if SCRIPT not in given and asked.scenarios is None:
        wrong = [one for one in wrong if one.file != names[SCENARIOS]]
    if wrong:
        return None, Report(asked.script, "", asking.FILES, wrong, {})
    script, scenarios = given[SCRIPT], given[SCENARIOS]
    certificate = kept.of(script, given.get(CERTIFICATE), find)
    return (script, certificate, scenarios), fault_of(script, certificate, scenarios, find)


@contextlib.contextmanager
def runner(files, find):
    """What asks the program about plans of these files. Where it tells nothing the tool ends, with its status."""
    script, certificate, scenarios = files
    try:
        yield running.Runner(find("mgexplain"), script.text, certificate.text, scripts.read(script.text))
    except running.NoFacts as fault:
        asking.stop(f"{scenarios.name}: {fault.line or 'no facts are told'}", fault.status)


@contextlib.contextmanager
def bar():
    """What tells how many courses are at their ends, and how many there are."""
    with progress.line() as line:
        yield lambda count, whole: line(f"[{'#' * (BAR * count // whole):.<{BAR}}] {count} of {whole} at their ends")


def tell_undone(scenarios, courses, given):
    """Says on standard error what of scenarios couldn't be done; gives the status, 0 where all could."""
    flaws = [(scenario, course, judging.undone(course, scenario)) for scenario, course in zip(scenarios, courses)]
    text = places.Text(given.text)
    lines = [told.diagnostic(outcomes.Outcome(one, flaw, None, None, None, course), given.name, text) for one, course, flaw in flaws if flaw]
    print("".join(f"{diagnostics.line(line)}\n" for line in lines), end="", file=sys.stderr)
    return int(bool(lines))
