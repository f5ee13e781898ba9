"""The forms in which `mgtool check` tells what it comes to: lines as compilers write them, one JSON value, SARIF and JUnit XML. It is installed too, so it
knows nothing of this repository."""
import json
import sys
from collections.abc import Callable, Sequence

from shared import asking
from shared.door import diagnostics, inputs, junit, sarif
from shared.door.declarations import JSON, JUNIT, SARIF, TEXT
from shared.door.diagnostics import Report, error
from shared.mistakes.findings import valid

# Which keys the JSON value has, with which meanings.
FORMAT = 1
# The rule of what is told if there is no answer.
NO_ANSWER = "no-answer"


def text(report):
    """The lines; without an answer they are of files that can't be taken."""
    lines = [*map(diagnostics.line, report.diagnostics), *([report.line] if report.line else [])]
    return "".join(f"{line}\n" for line in lines)


def record(told):
    """What is told as an object, without the keys that would have nothing."""
    place = {"at_line": told.place.line, "at_column": told.place.column} if told.place else {}
    return {"file": valid(told.file), **place, "severity": told.severity, **({"rule": told.rule} if told.rule else {}), "says": told.text}


def value(report, **more):
    """One JSON value; a command may tell more than the others."""
    line = {"line": report.line} if report.line else {}
    return json.dumps({"format": FORMAT, **line, "status": report.status, "diagnostics": [*map(record, report.diagnostics)], **more}) + "\n"


def status_of(reports: Sequence[Report]) -> int:
    """The status to end with: the highest."""
    return max(report.status for report in reports)


def value_of_all(reports: Sequence[Report]) -> str:
    """One JSON value of all reports: of several, with an object for each script."""
    if len(reports) == 1:
        return value(reports[0])
    told = [one for report in reports for one in report.diagnostics]
    scripts = [{"script": valid(one.script), **({"line": one.line} if one.line else {}), "status": one.status} for one in reports]
    return value(Report("", "", status_of(reports), told, {}), scripts=scripts)


WRITERS = {JSON: value_of_all, SARIF: sarif.written, JUNIT: junit.written}


def write_text(report: Report, is_one_of_many: bool = False) -> None:
    """Writes the lines of a report: errors of files that can't be taken on standard error, all else on standard output. The line of one of many has the name of
    its script before it."""
    is_refused = not report.line and report.status == asking.FILES
    if is_one_of_many and not is_refused:
        script = diagnostics.printable(report.script)
        report = report._replace(line=f"{script}: {report.line or f'no answer, status {report.status}'}")
    print(text(report), end="", file=sys.stderr if is_refused else sys.stdout, flush=True)


def report_of_stop(script: str, stopped: asking.Stopped) -> Report:
    """The report of a command that stopped on the way; words that ask for nothing have none, and end the command."""
    if stopped.code == asking.WORDS:
        raise stopped
    refused = stopped.refused if isinstance(stopped, inputs.NotTaken) else [error(script, None, NO_ANSWER, stopped.said)]
    return Report(script, "", stopped.code, refused, {})


def report_of(script: str, work: Callable[[], Report]) -> Report:
    """The report that some work gives, or of the stop on the way."""
    try:
        return work()
    except asking.Stopped as stopped:
        return report_of_stop(script, stopped)


def write(form: str, works: Sequence[tuple[str, Callable[[], Report]]]) -> int:
    """Does the work of each script, and writes what it comes to in a form: as text, each report once it is there; gives the highest status."""
    if form != TEXT:
        reports = [report_of(*one) for one in works]
        print(WRITERS[form](reports), end="")
        return status_of(reports)
    status = 0
    for _, work in works:
        report = work()
        write_text(report, len(works) > 1)
        status = max(status, report.status)
    return status
