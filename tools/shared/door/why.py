"""`mgtool why`: what the check comes to, or with a plan what each of its steps does, in words. It is installed too, so it knows nothing of this repository."""
from shared import asking, explained
from shared.door import forms, kept


def forms_of(asked):
    """The words of the forms that are asked for."""
    pairs = ((explained.JSON, asked.is_json), (explained.DOT, asked.is_dot), (explained.LADDER, asked.is_ladder))
    return [word for word, is_asked in pairs if is_asked]


def fault_of(asked, forms):
    """What is wrong with options that don't go together; none where all do."""
    has_plan = asked.plan is not None
    if len(forms) > 1:
        return f"{' and '.join(forms)} don't go together"
    if not has_plan and (asked.is_ladder or asked.call is not None):
        return f"{explained.LADDER if asked.is_ladder else explained.CALL} goes with a plan"
    if has_plan and (asked.is_dot or asked.is_strict):
        return f"{explained.DOT if asked.is_dot else explained.STRICT} goes without a plan"
    if asked.is_dot and asked.is_strict:
        return f"{explained.DOT} and {explained.STRICT} don't go together"
    return None


def facts_of(asked, words, find):
    """The status of mgexplain, and the JSON value of its facts."""
    texts = [one.text for one in kept.files(asked, find)]
    status, output = asking.told(find("mgexplain"), [explained.JSON, *words], texts)
    if not output:
        asking.stop(f"mgexplain ended with status {status}, and told nothing", status)
    return status, output


def told_as_json(asked, words, find):
    """Prints the facts as one JSON value, or if there are none a value of the form of `check --format json` that says why; gives the status."""
    try:
        status, output = facts_of(asked, words, find)
    except asking.Stopped as stopped:
        report = forms.report_of_stop(asked.script, stopped)
        status, output = report.status, forms.value(report)
    print(output, end="")
    return status


def done(asked, find):
    """Says what is asked for; gives the status."""
    found = forms_of(asked)
    if fault := fault_of(asked, found):
        asked.refuse(fault)
    words = [*([explained.CALL, asked.call] if asked.call is not None else []), *([explained.STRICT] if asked.is_strict else [])]
    if asked.is_json:
        return told_as_json(asked, words, find)
    given = kept.files(asked, find)
    wanted = explained.Wanted([one.name for one in given], *(found or [None]), words)
    return explained.answered(wanted, [one.text for one in given], find)
