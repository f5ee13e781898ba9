#!/usr/bin/env python3
"""Writes the answers of check_all.sh as files that a forge shows: JUnit XML, SARIF 2.1.0, and the JSON of GitLab's code quality. Each answer is five lines of
standard input: what was asked (check, plan, scenarios, folder), the status, the file, what belongs to it (its certificate, its report), and the line. A No
is at the line of the certificate on which the entry begins that it names, or at the certificate's first line if it names none. A report that differs, and a
scenario that fails, is at the line that the answer names. Everything else is at the first line of its file. A file whose name is empty isn't written. The
status is 6 if a file can't be written."""
import hashlib
import json
import os
import re
import sys
import traceback
from collections import namedtuple
from pathlib import Path
from urllib.parse import quote
from xml.sax.saxutils import escape, quoteattr

FORMS = ("--junit", "--sarif", "--codequality")
RULES = {
    "K1": "the configuration in which a call opens is in some entry",
    "K2": "the result of each step of each point is in some entry",
    "K3": "lines that are joined are marked as talking in the point's state",
    "K4": "where a call has ended each line is silent, in the null context and armed for off-hook alone, and no ephemeral exists",
    "K5": "while a state's request is on its way, the names that it creates are free",
    "K6": "the configuration after a restart of the gateway is in some entry",
    "K7": "while a request is on its way, and at rest, a name that is bound stands for what exists",
    "report": "the plan of a script has the report that is kept",
    "scenario": "each scenario comes out as its file says",
    "fault": "the input can be read",
    "no-answer": "there is an answer",
}
# An answer: what was asked, its status, its file, what belongs to it, and its line.
Answer = namedtuple("Answer", "kind status file beside line")
SPACE = re.compile(r"[ \t\r\n]*")


def behind_space(text, place):
    """The place behind the white space that stands at a place of a JSON text."""
    return SPACE.match(text, place).end()


def values(text, place, has_keys):
    """The values of the object or the array that begins at a place, each with its key, if it has one, and the place where it begins."""
    decoder = json.JSONDecoder()
    place = behind_space(text, place + 1)
    while text[place] not in "]}":
        key = None
        if has_keys:
            key, place = decoder.raw_decode(text, place)
            place = behind_space(text, behind_space(text, place) + 1)
        yield key, place
        place = behind_space(text, decoder.raw_decode(text, place)[1])
        if text[place] == ",":
            place = behind_space(text, place + 1)


def line_of_entry(text, number):
    """The line on which the entry of this number begins, counted from 0, in the text of a certificate; 1 where there is none. Of a key `entries` that stands
    twice the last one counts, as for mgcall."""
    try:
        lists = [place for key, place in values(text, behind_space(text, 0), True) if key == "entries"]
        begins = [place for _, place in values(text, lists[-1], False)]
        return text.count("\n", 0, begins[number]) + 1
    except (IndexError, RecursionError, ValueError):
        return 1


def place_of(answer):
    """The file and the line at which an answer stands."""
    found = re.fullmatch(r"no K\d entry=(\d+|-) .*", answer.line) if answer.kind == "check" else None
    if found:
        text = Path(answer.beside).read_bytes().decode(errors="replace")
        return answer.beside, line_of_entry(text, int(found[1])) if found[1] != "-" else 1
    found = re.search(r", from line (\d+)$", answer.line) if answer.kind in ("plan", "scenarios") else None
    if found:
        return answer.beside, max(1, int(found[1]))
    is_of_certificate = answer.kind == "check" and answer.line.startswith("certificate fault ")
    return answer.beside if is_of_certificate else answer.file, 1


def rule_of(answer):
    """The rule that an answer which isn't well breaks."""
    found = re.match(r"no (K[1-7]) ", answer.line)
    if found:
        return found[1]
    return {1: "scenario" if answer.kind == "scenarios" else "report", 3: "fault"}.get(answer.status, "no-answer")


def relative(path):
    """A path without the front that says that it is relative."""
    return path[2:] if path.startswith("./") else path


def uri(path):
    """A path as SARIF has it: relative where it is, and of signs that stand for themselves."""
    return f"{'file://' if path.startswith('/') else ''}{quote(relative(path), errors='surrogateescape')}"


def plain(text):
    """A text without the signs that XML and JSON can't have."""
    return re.sub(r"[\x00-\x08\x0b\x0c\x0e-\x1f\ud800-\udfff\ufffe\uffff]", "?", text)


def junit(answers):
    """The answers as JUnit XML: a No is a failure, and what has no answer an error."""
    counts = sum(answer.status == 1 for answer in answers), sum(answer.status > 1 for answer in answers)
    head = f'tests="{len(answers)}" failures="{counts[0]}" errors="{counts[1]}"'
    yield f'<?xml version="1.0" encoding="UTF-8"?>\n<testsuites {head}>\n<testsuite name="mgcall" {head}>\n'
    for answer in answers:
        name = quoteattr(plain(answer.file))
        yield f'<testcase classname="mgcall.{answer.kind}" name={name} file={name}>'
        if answer.status:
            file, line = place_of(answer)
            tag = "failure" if answer.status == 1 else "error"
            yield f'<{tag} type="{rule_of(answer)}" message={quoteattr(plain(answer.line))}>{escape(plain(f"{file}:{line}: {answer.line}"))}</{tag}>'
        yield "</testcase>\n"
    yield "</testsuite>\n</testsuites>\n"


def sarif(answers):
    """The answers that aren't well as SARIF."""
    results = []
    for answer in answers:
        file, line = place_of(answer)
        location = {"physicalLocation": {"artifactLocation": {"uri": uri(file)}, "region": {"startLine": line}}}
        message = plain(f"{answer.file}: {answer.line}. What has to hold: {RULES[rule_of(answer)]}.")
        results.append({"ruleId": rule_of(answer), "level": "error", "message": {"text": message}, "locations": [location]})
    rules = [{"id": name, "shortDescription": {"text": text}} for name, text in RULES.items()]
    run = {"tool": {"driver": {"name": "mgcall", "rules": rules}}, "results": results}
    yield json.dumps({"$schema": "https://json.schemastore.org/sarif-2.1.0.json", "version": "2.1.0", "runs": [run]}, indent=1) + "\n"


def codequality(answers):
    """The answers that aren't well as the JSON of GitLab's code quality."""
    found = []
    for answer in answers:
        file, line = place_of(answer)
        text = plain(f"{answer.file}: {answer.line}")
        number = hashlib.sha256(f"{rule_of(answer)} {text}".encode()).hexdigest()
        location = {"path": plain(relative(file)), "lines": {"begin": line}}
        found.append({"description": text, "check_name": rule_of(answer), "fingerprint": number, "severity": "critical", "location": location})
    yield json.dumps(found, indent=1) + "\n"


def main():
    named = dict(zip(sys.argv[1::2], sys.argv[2::2]))
    if not set(named) <= set(FORMS) or len(sys.argv) % 2 == 0:
        print(f"usage: reports.py {' '.join(f'[{form} FILE]' for form in FORMS)} < ANSWERS", file=sys.stderr)
        return 2
    lines = sys.stdin.buffer.read().decode(errors="surrogateescape").split("\n")
    answers = [Answer(kind, int(status), *rest) for kind, status, *rest in zip(*(lines[place::5] for place in range(5)))]
    broken, status = [answer for answer in answers if answer.status], 0
    for form, written, told in ((FORMS[0], junit, answers), (FORMS[1], sarif, broken), (FORMS[2], codequality, broken)):
        try:
            if named.get(form):
                Path(named[form]).write_text("".join(written(told)), encoding="utf-8")
        except OSError as error:
            print(f"{error.filename or named[form]}: {error.strerror}", file=sys.stderr)
            status = 6
    return status


def status():
    """The status to end with; 70 for an error that nobody expected, since 1 is a No."""
    try:
        return main()
    except Exception as error:  # pylint: disable=broad-exception-caught
        if os.environ.get("MGTOOL_DEBUG") == "1":
            traceback.print_exc()
        print(f"reports.py: internal error: {type(error).__name__}: {error}; please report it, as SECURITY.md of mgcall's sources says", file=sys.stderr)
        return 70


if __name__ == "__main__":
    sys.exit(status())
