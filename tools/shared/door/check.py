"""`mgtool check`: all that is wrong with a script by its place, and the line of `mgcall check` with its status. It is installed too, so it knows nothing of
this repository."""
import functools

from shared import asking, explained
from shared.door import early, forms, inputs, kept, meant, verdicts
from shared.door.declarations import TEXT
from shared.door.diagnostics import TOP, WARNING, Place, Report, error
from shared.door.inputs import CERTIFICATE, SCRIPT
from shared.mistakes import told as mistakes
from shared.unread_words import RULES

YES, NO = 0, 1
STRICT = "--strict"


def found_in(given):
    """The mistakes of these files, in the order of the files."""
    return mistakes.mistakes({one.kind: one.text for one in given})


def mistaken(given):
    """The mistakes of these files as errors, in the order of the files."""
    return errors(found_in(given), given)


def errors(found, given):
    """Mistakes of these files as errors."""
    names = {one.kind: one.name for one in given}
    for one in found:
        path = f"{one.path}: " if one.path else ""
        meant = f" (did you mean `{one.meant}`?)" if one.meant is not None else ""
        rule = f"{one.of} fault {one.fault_number} {one.fault_name}"
        yield error(names[one.document], Place(one.at_line, one.at_column), rule, f"{path}{one.says}{meant}")


def line_of(asked, script, certificate, find):
    """The status of `mgcall check`, and its line."""
    words = ["check", *(["--pieces", asked.pieces] if asked.pieces else [])]
    status, output = asking.told(find("mgcall"), words, [script.text, certificate.text])
    return status, output.rstrip("\n")


def unread(page, script):
    """What is told of a fault in which the view of all mistakes sees none."""
    fault = page["fault"]
    rule = f"{fault['of']} fault {fault['fault_number']} {fault['fault_name']}"
    return [error(script.name, TOP, rule, RULES[fault["of"]][fault["fault_name"]])]


def explanation(asked, script, certificate, find):
    """The status that a yes has, and what is told of the answer: a yes under which everything is meant that `mgexplain` warns of has no warning."""
    status, page = explained.told(find("mgexplain"), [STRICT] if asked.is_strict else [], [script.text, certificate.text])
    if page is None or page["status"] not in (YES, NO, asking.FILES):
        return status, []
    if "fault" in page:
        return status, unread(page, script)
    ignored, untaken = meant.of_page(page, script)
    found = [*verdicts.diagnostics(page, script, certificate, ignored), *untaken]
    is_meant = "obligation" not in page and status == NO and all(one.severity != WARNING for one in found)
    return YES if is_meant else status, found


def report(asked, script, named, find):
    """What the check comes to."""
    given = [one for one in (script, named) if one is not None]
    texts = {one.name: one.text for one in given}
    if found := found_in(given):
        line = early.line_of(found, given)
        status, line = (asking.FILES, line) if line else line_of(asked, script, named or kept.nothing(), find)
        return Report(script.name, line, status, [*errors(found, given)], texts)
    certificate = kept.of(script, named, find)
    status, line = line_of(asked, script, certificate, find)
    texts[certificate.name] = certificate.text
    if status not in (YES, NO, asking.FILES):
        return Report(script.name, line, status, [], texts)
    strictly, found = explanation(asked, script, certificate, find)
    return Report(script.name, line, strictly if status == YES else status, found, texts)


def untaken(asked, refused):
    """The reports of files that can't be taken: one for one script, else one for each file."""
    if len(asked.scripts) == 1:
        return [Report(asked.scripts[0], "", asking.FILES, refused, {})]
    return [Report(one.file, "", asking.FILES, [one], {}) for one in refused]


def done(asked, find):
    """Checks what is asked for, and tells of it in the form that is asked for; gives the status. If a file can't be taken, none is checked."""
    if asked.certificate is not None and len(asked.scripts) > 1:
        asked.refuse(f"{inputs.NAMED} goes with one script")
    given, refused = inputs.read_each([(SCRIPT, name) for name in asked.scripts])
    named, more = inputs.read_all({CERTIFICATE: asked.certificate})
    if refused or more:
        works = [(one.script, functools.partial(Report, *one)) for one in untaken(asked, [*refused, *more])]
    else:
        works = [(one.name, functools.partial(report, asked, one, named.get(CERTIFICATE), find)) for one in given]
    return forms.write(asked.format or TEXT, works)
