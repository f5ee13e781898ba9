"""`mgtool coverage`: what a service does under a yes, state by state, and which intents of the file beside its script don't hold. It is installed too, so it
knows nothing of this repository."""
import os

from shared import asking, explained
from shared.door import check, declarations, early, forms, inputs, intent_mistakes, intents, kept, places, verdicts
from shared.door.diagnostics import TOP, Report, error
from shared.door.inputs import CERTIFICATE, SCENARIOS, SCRIPT

YES, NO = check.YES, check.NO
NO_INTENTS = "it has no `[intents.STATE]` table, and intents are looked for in it"


def named(asked):
    """The name of the file with intents: the one that is asked for, or the one that stands beside the script; none where there is none."""
    if asked.scenarios is not None or asked.script == declarations.STANDARD:
        return asked.scenarios
    beside = kept.Beside(asked.script).scenarios
    return os.fspath(beside) if beside.exists() else None


def tables(file):
    """The intents of a file without mistakes; none where there is no file."""
    return {} if file is None else places.Document(file.text).root.plain().get(intents.KEY, {})


def mistaken(asked, script, file):
    """The mistakes of the file with intents; none where there is no such file."""
    if file is None:
        return []
    found = intent_mistakes.mistakes(script, file)
    if not found and asked.scenarios is not None and not tables(file):
        return [error(file.name, TOP, intents.KEY, NO_INTENTS)]
    return found


def facts(script, certificate, find):
    """The status of `mgexplain`, its facts, which are none where it tells nothing, and its line."""
    status, page = explained.told(find("mgexplain"), [], [script.text, certificate.text])
    return status, page, page["line"] if page else ""


class Told:
    """What coverage comes to: the report, the facts where they are of a yes, and how many things are asked and how many of these don't hold."""

    def __init__(self, report, page=None, asked=0, broken=0):
        self.report, self.page, self.asked, self.broken = report, page, asked, broken

    def summary(self):
        """The line on the intents."""
        some = f"{self.broken} of {self.asked} {'does' if self.broken == 1 else 'do'}n't hold"
        return f"intents: {some if self.broken else f'all {self.asked} hold' if self.asked > 1 else 'the one holds'}"


def of_yes(page, script, certificate, file, texts):
    """What a yes comes to."""
    answers = intents.answers(page, tables(file), intents.Places(script, file)) if file is not None else []
    broken = [answer for answer in answers if answer]
    found = [one for answer in broken for one in answer]
    return Told(Report(script.name, page["line"], NO if broken else YES, found, texts), page, len(answers), len(broken))


def told(asked, given, find):
    """What coverage of files that were read comes to."""
    script, certificate, file = given[SCRIPT], given.get(CERTIFICATE), given.get(SCENARIOS)
    texts = {one.name: one.text for one in given.values()}
    documents = [one for one in (script, certificate) if one is not None]
    if found := check.found_in(documents):
        line = early.line_of(found, documents)
        status, line = (asking.FILES, line) if line else facts(script, certificate or kept.nothing(), find)[::2]
        return Told(Report(script.name, line, status, [*check.errors(found, documents)], texts))
    if found := mistaken(asked, script, file):
        return Told(Report(script.name, "", asking.FILES, found, texts))
    certificate = kept.of(script, certificate, find)
    texts[certificate.name] = certificate.text
    status, page, line = facts(script, certificate, find)
    if status == YES:
        return of_yes(page, script, certificate, file, texts)
    if page is None or status not in (NO, asking.FILES):
        return Told(Report(script.name, line, status, [], texts))
    found = check.unread(page, script) if "fault" in page else verdicts.diagnostics(page, script, certificate)
    return Told(Report(script.name, line, status, found, texts))


def text_of(found, script, is_brief):
    """What is said of a yes: what the service does, and behind it which intents don't hold; briefly these alone."""
    of_intents = forms.text(found.report._replace(line=found.summary())) if found.asked else ""
    if is_brief:
        return of_intents
    lines = explained.view(explained.COVERAGE, found.page, [script.text])
    return f"{lines}\n{of_intents}" if of_intents else lines


def answer(asked, given, find):
    """What coverage of files that were read comes to; as JSON also if the command stops on the way."""
    try:
        return told(asked, given, find)
    except asking.Stopped as stopped:
        if asked.format != declarations.JSON:
            raise
        return Told(forms.report_of_stop(asked.script, stopped))


def done(asked, find):
    """Tells what is asked for; gives the status."""
    given, refused = inputs.read_all({SCRIPT: asked.script, CERTIFICATE: asked.certificate, SCENARIOS: named(asked)})
    found = Told(Report(asked.script, "", asking.FILES, refused, {})) if refused else answer(asked, given, find)
    if asked.format == declarations.JSON:
        more = {} if found.page is None else {"facts": found.page}
        print(forms.value(found.report, **more), end="")
    elif found.page is None:
        forms.write_text(found.report)
    else:
        print(text_of(found, given[SCRIPT], asked.is_brief), end="")
    return found.report.status
