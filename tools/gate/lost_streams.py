"""Trials of commands whose standard streams are closed or full, or can't encode what is printed, and of errors that nobody expected: no traceback, and no
status 0 or 1 if something of the answer was lost."""
import os
import subprocess
import sys
from collections import namedtuple
from collections.abc import Iterator
from pathlib import Path

from shared import unexpected
from shared.programs import TOP

WATCH, SHIELD = TOP / "examples" / "watch", TOP / "examples" / "shield"
SCRIPT, CERTIFICATE, PLAN = (WATCH / name for name in ("script.toml", "certificate.json", "plan.toml"))
# A name that ASCII doesn't have, and how it is shown there.
NAME, SHOWN = "nö.toml", "n\\xf6.toml"
# The words of each tool with an answer, and the status of that answer.
ASKED = {
    "check": ([SCRIPT, CERTIFICATE], 0),
    "run": ([SCRIPT, CERTIFICATE, PLAN], 0),
    "why": ([SHIELD / "script.toml", SHIELD / "certificate.json"], 1),
    "picture": ([SCRIPT], 0),
    "trace": ([SCRIPT, CERTIFICATE, PLAN], 0),
    "mistakes": ([SCRIPT, CERTIFICATE], 0),
    "mgtool": (["check", SCRIPT, "--certificate", CERTIFICATE], 0),
}
# Words for a file that isn't there.
ABSENT = {
    "check": [NAME, CERTIFICATE],
    "run": [SCRIPT, NAME, PLAN],
    "why": [SCRIPT, NAME],
    "picture": [NAME],
    "trace": [NAME, CERTIFICATE, PLAN],
    "mistakes": [NAME],
    "mgtool": ["check", NAME],
}
# Programs of a tool that an error ends which nobody expected.
RAISES = "from shared import asking\nasking.run(lambda: {}['a name\\nof two lines'])"
NO_MEMORY = "from shared import asking\ndef main():\n    raise MemoryError\nasking.run(main)"
# What a command came to.
Seen = namedtuple("Seen", "status output error")


def told(words: list[object], streams: str = "", **more: str) -> Seen:
    """What a command comes to if a shell opens its streams so."""
    line = ["sh", "-c", f'exec "$0" "$@" {streams}', *map(str, words)]
    result = subprocess.run(line, cwd=TOP, env={**os.environ, **more}, stdin=subprocess.DEVNULL, capture_output=True, check=False)
    return Seen(result.returncode, result.stdout.decode(errors="replace"), result.stderr.decode(errors="replace"))


def of_answers(tool: str, path: Path) -> Iterator[tuple[str, bool]]:
    """An answer that gets lost has the status of a failed write. It is the same without standard input, and without notes."""
    words, status = ASKED[tool]
    whole = told([path, *words])
    yield f"{path.name} as it is: {whole}", whole.status == status and "Traceback" not in whole.error
    if whole.output:
        for streams in (">/dev/full", ">&-"):
            seen = told([path, *words], streams)
            yield f"{path.name} {streams}: {seen}", seen.status == 6 and "Traceback" not in seen.error
    for streams in ("2>/dev/full", "2>&-", "<&-"):
        seen = told([path, *words], streams)
        yield f"{path.name} {streams}: {seen}", seen[:2] == whole[:2] and "Traceback" not in seen.error


def of_absent(tool: str, path: Path) -> Iterator[tuple[str, bool]]:
    """An error keeps its status if its line can't be printed, and a name that can't be encoded is escaped."""
    words = [path, *ABSENT[tool]]
    for streams in ("2>/dev/full", "2>&-", ">&-", ">/dev/full", "<&-"):
        seen = told(words, streams)
        yield f"{path.name} of no file, {streams}: {seen}", (seen.status, seen.output) == (3, "") and "Traceback" not in seen.error
    seen = told(words, PYTHONIOENCODING="ascii")
    lines = [line for line in seen.error.splitlines() if "is not proved" not in line]
    yield f"{path.name} of {NAME} in ASCII: {seen}", seen.status == 3 and len(lines) == 1 and SHOWN in lines[0]


def of_help(path: Path) -> Iterator[tuple[str, bool]]:
    """Help that gets lost is no help."""
    seen = told([path, "--help"], ">/dev/full")
    yield f"{path.name} --help >/dev/full: {seen}", seen.status == 6 and seen.error == "standard output: No space left on device\n"


def says_where_to_report(line: str) -> bool:
    """Whether a text is the line of an error that nobody expected."""
    return line.count("\n") == 1 and ": internal error: " in line and "SECURITY.md" in line and unexpected.DEBUG in line


def of_errors() -> Iterator[tuple[str, bool]]:
    """An error that nobody expected has a line and status 70; its traceback is shown where that is wanted."""
    python, tools = [sys.executable, "-c"], {"PYTHONPATH": str(TOP / "tools")}
    seen = told([*python, RAISES], **tools)
    holds = seen[:2] == (70, "") and says_where_to_report(seen.error) and "KeyError: 'a name\\nof two lines'" in seen.error
    yield f"an error that nobody expected: {seen}", holds
    seen = told([*python, RAISES], **tools, MGTOOL_DEBUG="1")
    yield f"its traceback: {seen}", seen.status == 70 and seen.error.startswith("Traceback") and "KeyError" in seen.error.splitlines()[-1]
    for streams in ("2>/dev/full", "2>&-"):
        seen = told([*python, RAISES], streams, **tools)
        yield f"an error that nobody expected, {streams}: {seen}", seen == (70, "", "")
    seen = told([*python, NO_MEMORY], **tools)
    yield f"out of memory: {seen}", seen == (4, "", "no memory\n")


def of_nonsense(root: Path) -> Iterator[tuple[str, bool]]:
    """Installed commands of which the program prints what it never prints, or of which a module isn't there."""
    program, module = root / "bin" / "mgexplain", root / "lib" / "mgcall" / "shared" / "explained.py"
    before, text = program.read_bytes(), module.read_bytes()
    program.write_text("#!/bin/sh\necho nonsense\n")
    calls = (["mgcall-why", SCRIPT, CERTIFICATE], ["mgcall-draft", SCRIPT], ["mgtool", "why", SCRIPT, "--certificate", CERTIFICATE])
    for name, *words in calls:
        seen = told([root / "bin" / name, *words])
        error = seen.error.replace("answered by a program that is not proved\n", "")
        yield f"{name} with a program that prints nonsense: {seen}", seen[:2] == (70, "") and says_where_to_report(error)
    program.write_bytes(before)
    module.unlink()
    seen = told([root / "bin" / "mgcall-why", SCRIPT, CERTIFICATE])
    yield f"mgcall-why without a module: {seen}", seen[:2] == (70, "") and says_where_to_report(seen.error)
    module.write_bytes(text)


def tried(root: Path) -> Iterator[tuple[str, bool]]:
    """All trials, of the tools as they are here and as they are installed below a folder."""
    for tool in ASKED:
        name = tool if tool == "mgtool" else f"mgcall-{tool}"
        for path in (TOP / "tools" / tool, root / "bin" / name):
            yield from of_answers(tool, path)
            yield from of_absent(tool, path)
            yield from of_help(path)
    yield from of_errors()
    yield from of_nonsense(root)
