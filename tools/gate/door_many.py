"""Trials of `mgtool check` of several scripts in each form, of JSON on every failure, of names that are no UTF-8, and of long documents with mistakes, of which
no program is asked."""
import json
import os
import shutil
import subprocess
import xml.etree.ElementTree as xml
from collections.abc import Iterator, Sequence
from pathlib import Path
from types import SimpleNamespace

from gate import accepting, installing, stored
from shared.door import check, declarations, early
from shared.door.inputs import CERTIFICATE, SCRIPT, Given
from shared.mistakes import told as mistakes
from shared.programs import TOP

HOTLINE, TWIN = TOP / "gallery" / "hotline", TOP / "gallery" / "hotline" / "twin"
YES, NO, FAULT = "yes 6 15 33", "no K3 entry=3 point=0 step=-", "script fault 2 BadKey"
UNREADABLE, NO_PROGRAM = 3, 127


def told(words: Sequence[object], **how) -> tuple[int, str, str]:
    """Status, output and standard error of a call."""
    result = subprocess.run([word if isinstance(word, bytes) else str(word) for word in words], capture_output=True, check=False, **how)
    return result.returncode, result.stdout.decode(errors="surrogateescape"), result.stderr.decode(errors="surrogateescape")


def is_accepted(text: str) -> bool:
    """Whether a text is a JSON value by the schema of diagnostics, if the library for schemas is there."""
    value = json.loads(text)
    return not accepting.jsonschema or accepting.validator("diagnostics").is_valid(value)


def is_refusal(text: str, status: int) -> bool:
    """Whether a text is a JSON value that says why there is no answer."""
    if not text or not is_accepted(text):
        return False
    value = json.loads(text)
    return value["status"] == status and bool(value["diagnostics"])


def put(folder: Path, name: str, source: Path) -> Path:
    """A script with its certificate beside it, as mgtool keeps one."""
    shutil.copy(source / "script.toml", folder / f"{name}.toml")
    shutil.copy(source / "certificate.json", folder / f"{name}.certificate.json")
    return folder / f"{name}.toml"


# ---- several scripts


def of_texts(tool: Path, scripts: list[Path]) -> Iterator[tuple[str, bool]]:
    """The lines of several scripts, and files of which some can't be taken."""
    status, output, _ = told([tool, "check", *scripts])
    lines = [line for line in output.splitlines() if line.startswith(tuple(f"{path}: " for path in scripts))]
    wanted = [f"{path}: {line}" for path, line in zip(scripts, (YES, NO, FAULT))]
    yield f"the lines of several scripts: {output}", status == UNREADABLE and lines == wanted and output.endswith(f"{wanted[-1]}\n")
    yield "two scripts", told([tool, "check", *scripts[:2]])[0] == 1
    status, output, error = told([tool, "check", scripts[0], "nowhere", scripts[1], "nowhere too"])
    yield f"files that aren't there: {error}", (status, output, error.count("\n")) == (UNREADABLE, "", 2)
    status, output, _ = told([tool, "check", scripts[0], "nowhere", "--format", "json"])
    yield f"one that isn't there, as JSON: {output}", status == UNREADABLE and is_accepted(output) and "nowhere" in output


def of_several(tool: Path, top: Path) -> Iterator[tuple[str, bool]]:
    """A yes, a no and a mistake, in each form."""
    scripts = [put(top, "yes", HOTLINE), put(top, "no", TWIN), put(top, "wrong", HOTLINE)]
    scripts[2].write_text(scripts[2].read_text().replace("timer", "timeout"))
    yield from of_texts(tool, scripts)
    status, output, _ = told([tool, "check", *scripts, "--format", declarations.JSON])
    value = json.loads(output)
    rows = [(Path(one["script"]), one["line"], one["status"]) for one in value.get("scripts", [])]
    holds = rows == [*zip(scripts, (YES, NO, FAULT), (0, 1, 3))] and value["status"] == status == UNREADABLE and is_accepted(output)
    yield f"several scripts as JSON: {output}", holds and {Path(one["file"]).name for one in value["diagnostics"]} >= {"no.toml", "wrong.toml"}
    status, output, _ = told([tool, "check", *scripts, "--format", declarations.JUNIT])
    [suite] = xml.fromstring(output.encode())
    outcomes = [(Path(case.get("name")), [one.tag for one in case if one.tag != "system-out"]) for case in suite]
    counts = [suite.get(key) for key in ("tests", "failures", "errors")]
    wanted = [(scripts[0], []), (scripts[1], ["failure"]), (scripts[2], ["error"])]
    yield f"several scripts as JUnit XML: {output}", status == UNREADABLE and outcomes == wanted and counts == ["3", "1", "1"]
    status, output, _ = told([tool, "check", *scripts, "--format", declarations.SARIF])
    [run] = json.loads(output)["runs"]
    codes = [(one["exitCode"], one["exitCodeDescription"]) for one in run["invocations"]]
    found = {one["ruleId"] for one in run["results"]}
    yield f"several scripts as SARIF: {output}", status == UNREADABLE and codes == [(0, YES), (1, NO), (3, FAULT)] and found >= {"K3", FAULT}


# ---- JSON on every failure


def failures(folder: Path) -> Iterator[tuple[str, list[object], int]]:
    """Files that can't be taken: what it is, the words behind a command, and the status."""
    script = put(folder, "own", HOTLINE)
    bad = put(folder, "bad", HOTLINE)
    bad.with_suffix(".certificate.json").write_bytes(b"\xff")
    (folder / "empty").write_text("")
    yield "no script", [folder / "nowhere"], UNREADABLE
    yield "a folder", [folder], UNREADABLE
    yield "an empty script", [folder / "empty"], UNREADABLE
    yield "no certificate", [script, "--certificate", folder / "nowhere"], UNREADABLE
    yield "a certificate for a script", [HOTLINE / "certificate.json"], UNREADABLE
    yield "a kept certificate that can't be taken", [bad], UNREADABLE


def of_json(tool: Path, top: Path) -> Iterator[tuple[str, bool]]:
    """What commands print as JSON if files can't be taken, or the program says nothing or isn't there."""
    as_json = (["why", "--json"], ["check", "--format", "json"], ["coverage", "--format", "json"])
    for name, words, wanted in failures(top):
        for command in as_json:
            status, output, error = told([tool, *command, *words])
            yield f"{command} of {name}: {status}, {output}, {error}", status == wanted and is_refusal(output, wanted)
    _, root = installing.into(top / "root")
    program = root / "bin" / "mgexplain"
    program.unlink()
    for wanted, text in ((6, "#!/bin/sh\nexit 6\n"), (NO_PROGRAM, None)):
        program.unlink(missing_ok=True)
        if text is not None:
            program.write_text(text)
            program.chmod(0o755)
        status, output, _ = told([root / "bin" / "mgtool", "why", "--json", HOTLINE / "script.toml", "--certificate", HOTLINE / "certificate.json"])
        yield f"why --json without an answer: {status}, {output}", status == wanted and is_refusal(output, wanted)


def of_names(top: Path) -> Iterator[tuple[str, bool]]:
    """Names that are no UTF-8: what is printed is, in whatever locale."""
    name = os.fsencode(top) + b"/\xff\xe9.toml"
    with open(name, "w") as file:
        file.write((HOTLINE / "script.toml").read_text().replace("timer", "timeout"))
    calls = ([TOP / "tools" / "mistakes", name, "--json"], [TOP / "tools" / "mistakes", name], [TOP / "tools" / "mgtool", "check", "--format", "json", name])
    for locale in ({"LC_ALL": "C", "PYTHONUTF8": "0", "PYTHONCOERCECLOCALE": "0"}, {"LC_ALL": "C.UTF-8"}, {"PYTHONUTF8": "1"}):
        for words in calls:
            status, output, error = told(words, env={**os.environ, **locale})
            is_utf8 = output.encode(errors="surrogateescape").decode(errors="replace") == output and bool(output)
            is_json = not is_utf8 or words is calls[1] or "\\udc" not in json.dumps(json.loads(output))
            yield f"a name that is no UTF-8, {locale}: {status}, {output!r}, {error}", status == UNREADABLE and is_utf8 and is_json


# ---- long documents


def never(name: str) -> None:
    """Finds no program: none is to be asked."""
    raise AssertionError(f"{name} is asked")


def long_documents() -> Iterator[tuple[str, bytes, bytes | None, str]]:
    """Long documents with mistakes: what it is, the script, the certificate or none, and the line."""
    script, certificate = ((HOTLINE / name).read_text() for name in ("script.toml", "certificate.json"))
    states = "".join(f'[[state]]\nname = "s{number}"\ntimer = "idle"\n' for number in range(9000))
    yield "many states", f"{script}{states}".encode(), None, "script fault 13 TooMany"
    yield "many states, and a key that isn't known", f"{script.replace('timer', 'timeout')}{states}".encode(), None, FAULT
    yield "no TOML", f"{script}{'# x' * early.LONG}\n[".encode(), None, "script fault 1 NotToml"
    long = certificate.replace('"version":2', '"version":1') + " " * early.LONG
    yield "a long certificate", script.encode(), long.encode(), "certificate fault 7 OldVersion"


def of_long() -> Iterator[tuple[str, bool]]:
    """What is told of long documents, without a program; and that the line is that of the program for each stored document with a fault."""
    asked = SimpleNamespace(is_strict=False, pieces=None)
    for name, script, certificate, line in long_documents():
        named = None if certificate is None else Given(CERTIFICATE, "certificate", certificate)
        try:
            report = check.report(asked, Given(SCRIPT, "script", script), named, never)
        except AssertionError as fault:
            yield f"{name}: {fault}", False
            continue
        yield f"{name}: {report.line}", (report.line, report.status) == (line, UNREADABLE) and bool(report.diagnostics)
    for one in stored.inputs():
        given = [Given(kind, kind, text) for kind, text in zip((SCRIPT, CERTIFICATE), one.sections)]
        found = mistakes.mistakes({part.kind: part.text for part in given})
        if found and one.line.startswith(("script fault", "certificate fault")):
            line = early.line_of(found, given, 0)
            yield f"{one.name}: {line}", line in (None, one.line.splitlines()[0])
            yield f"{one.name}, which is short", early.line_of(found, given) is None


def tried(tool: Path, top: Path) -> Iterator[tuple[str, bool]]:
    """All trials, each part in a folder of its own."""
    for part in (of_several, of_json):
        (top / part.__name__).mkdir(parents=True)
        yield from part(tool, top / part.__name__)
    (top / "names").mkdir()
    yield from of_names(top / "names")
    yield from of_long()
