"""Trials of the command lines of the commands over files: each takes options before and behind its files, with the value in the same word or in the next one,
`--` before the files, and standard input in the place of each file. The note on the program that answers comes once, and not with `--quiet`."""
import subprocess
from collections.abc import Iterator, Sequence
from concurrent.futures import ThreadPoolExecutor
from pathlib import Path
from typing import NamedTuple

from shared.programs import TOP

WATCH, MISTAKEN = TOP / "examples" / "watch", TOP / "gallery" / "first" / "mistake_key" / "script.toml"
FILES = [WATCH / name for name in ("script.toml", "certificate.json", "plan.toml")]
NOTE = "answered by a program that is not proved"
WORDS = 2


class Case(NamedTuple):
    """A call of a tool: its files, its options with their values, and whether its output has the names of its files."""

    tool: str
    files: list[Path]
    options: list[tuple[str, str | None]]
    has_names: bool = False


CASES = (
    Case("check", FILES[:2], []),
    Case("run", FILES, [("--workers", "2")]),
    Case("why", FILES[:2], [("--json", None), ("--strict", None)]),
    Case("why", FILES, [("--call", "0")]),
    Case("draft", FILES[:1], [("-o", "-"), ("--wide", None)]),
    Case("picture", FILES[:1], []),
    Case("ladder", FILES, [("--call", "0")]),
    Case("trace", FILES, [("--call", "0")]),
    Case("page", FILES, [("-o", "/dev/null")], True),
    Case("mistakes", [MISTAKEN, *FILES[1:]], [("--json", None)], True),
    Case("mistakes", [MISTAKEN], [("--certificate", str(FILES[1])), ("--plan", str(FILES[2]))], True),
)
# Words that ask for nothing, whatever the command.
REFUSED = (["--quiet=x"], ["--quiet", "--quiet"], ["--nothing=x"], ["-1"])


def words_of(options: Sequence[tuple[str, str | None]], is_joined: bool) -> list[str]:
    """Options as words, a value in the word of its option or in the next one."""
    found = []
    for word, value in options:
        found += [word] if value is None else [f"{word}={value}"] if is_joined else [word, value]
    return found


def told(path: Path, words: Sequence[object], given: bytes = b"") -> tuple[int, bytes, str]:
    """Status, output and standard error of a call with this standard input."""
    result = subprocess.run([path, *map(str, words)], cwd=TOP, input=given, capture_output=True, check=False)
    return result.returncode, result.stdout, result.stderr.decode(errors="replace")


def variants(case: Case) -> Iterator[tuple[list[object], bytes]]:
    """Other ways to ask for the same, with what is on standard input."""
    before, behind = words_of(case.options, True), words_of(case.options, False)
    yield [*before, *case.files], b""
    yield [*behind, *case.files], b""
    yield [*case.files, *before], b""
    yield [case.files[0], *behind, *case.files[1:]], b""
    yield ["--quiet", *before, "--", *case.files], b""
    for place, path in enumerate(case.files):
        yield [*before, *case.files[:place], "-", *case.files[place + 1 :]], path.read_bytes()


def of_case(path: Path, case: Case) -> list[tuple[str, bool]]:
    """The trials of a case."""
    status, output, error = told(path, [*case.files, *words_of(case.options, False)])
    found = [(f"{path.name} {case.options}: {status}, {error}", status != WORDS and error.count(NOTE) <= 1)]
    for words, given in variants(case):
        other = told(path, words, given)
        is_same = other[0] == status and (other[1] == output or case.has_names and bool(given))
        found.append((f"{path.name} {' '.join(map(str, words))}: {other}", is_same and (NOTE not in other[2] or "--quiet" not in words)))
    twice = told(path, ["-", "-", *case.files[2:], *words_of(case.options, False)])
    if len(case.files) > 1:
        found.append((f"{path.name} with standard input twice: {twice}", twice[0] == WORDS and not twice[1] and "- is given twice" in twice[2]))
    for words in REFUSED:
        refused = told(path, [*case.files, *words_of(case.options, False), *words])
        found.append((f"{path.name} .. {words}: {refused}", (refused[0], refused[1]) == (WORDS, b"") and refused[2].startswith("usage: ")))
    return found


def tried(paths: dict[str, Path]) -> Iterator[tuple[str, bool]]:
    """All trials of tools, by their names."""
    cases = [case for case in CASES if case.tool in paths]
    with ThreadPoolExecutor(4) as pool:
        for found in pool.map(lambda case: of_case(paths[case.tool], case), cases):
            yield from found
