"""What a check comes to as SARIF 2.1.0: a result for each error, each warning and what is meant, with the notes behind it as related locations. Columns count
characters there. It is installed too, so it knows nothing of this repository."""
import json
from urllib.parse import quote

from shared.check_words import RULES
from shared.door.diagnostics import NOTE

SCHEMA, VERSION = "https://json.schemastore.org/sarif-2.1.0.json", "2.1.0"
# The statuses with which a check has been made, whatever it came to.
MADE = (0, 1, 3)


def uri(name):
    """A file's name as a relative or a whole URI."""
    return f"{'file://' if name.startswith('/') else ''}{quote(name.removeprefix('./'), errors='surrogateescape')}"


def column(told, texts):
    """The column in characters of a place whose column counts bytes."""
    lines = texts.get(told.file, b"").split(b"\n")
    if told.file not in texts or told.place.line > len(lines):
        return told.place.column
    return len(lines[told.place.line - 1][: told.place.column - 1].decode(errors="replace")) + 1


def location(told, texts):
    """Where it stands."""
    found = {"artifactLocation": {"uri": uri(told.file)}}
    if told.place is not None:
        found["region"] = {"startLine": told.place.line, "startColumn": column(told, texts)}
    return {"physicalLocation": found}


def result(told, notes, texts):
    """An error or a warning, with its notes."""
    found = {"ruleId": told.rule, "level": told.severity, "message": {"text": told.text}, "locations": [location(told, texts)]}
    if notes:
        related = ({"id": number, **location(one, texts), "message": {"text": one.text}} for number, one in enumerate(notes, 1))
        found["relatedLocations"] = [*related]
    return found


def results(report):
    """The errors, the warnings and what is meant, each with the notes that stand behind it."""
    groups = []
    for told in report.diagnostics:
        if told.severity == NOTE and not told.rule and groups:
            groups[-1][1].append(told)
        else:
            groups.append((told, []))
    return [result(told, notes, report.texts) for told, notes in groups]


def rules(diagnostics):
    """The rules that are broken, each once, with what it asks where that is known."""
    for name in dict.fromkeys(told.rule for told in diagnostics if told.rule):
        says = RULES.get(name) or name.replace("_", " ")
        yield {"id": name, "shortDescription": {"text": says}}


def invocation(report):
    """How the check of a script ended."""
    found = {"executionSuccessful": report.status in MADE, "exitCode": report.status}
    return {**found, "exitCodeDescription": report.line} if report.line else found


def written(reports):
    """The text of the log: one run, with an invocation for each script."""
    run = {
        "tool": {"driver": {"name": "mgtool", "rules": [*rules([told for report in reports for told in report.diagnostics])]}},
        "columnKind": "unicodeCodePoints",
        "invocations": [*map(invocation, reports)],
        "results": [found for report in reports for found in results(report)],
    }
    return json.dumps({"$schema": SCHEMA, "version": VERSION, "runs": [run]}, indent=1) + "\n"
