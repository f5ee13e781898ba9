"""Trials of the command line of mgtool: options with their values anywhere, `--`, standard input, wrong words, and the notes that `--quiet` silences."""
import shutil
import subprocess
from collections.abc import Iterator, Sequence
from pathlib import Path

from shared.programs import TOP

HOTLINE = TOP / "gallery" / "hotline"
SCRIPT, CERTIFICATE, PLAN = (HOTLINE / name for name in ("script.toml", "certificate.json", "plan.toml"))
NOTE, PROGRESS = "answered by a program that is not proved", "drafting: "
WORDS, UNREADABLE = 2, 3
NAMED = f"--certificate={CERTIFICATE}"
# Calls that ask for the same as the first of their row.
SAME = (
    (
        ["check", SCRIPT, "--certificate", CERTIFICATE, "--format", "json"],
        ["--format=json", NAMED, "check", SCRIPT],
        ["--format", "json", "check", NAMED, "--", SCRIPT],
        ["check", "--format=json", "--quiet", NAMED, SCRIPT],
    ),
    (
        ["why", SCRIPT, PLAN, "--certificate", CERTIFICATE, "--call", "1"],
        ["why", "--call=1", SCRIPT, NAMED, PLAN],
        ["--call=1", NAMED, "why", "--", SCRIPT, PLAN],
    ),
    (["run", SCRIPT, PLAN, "--certificate", CERTIFICATE, "--workers", "3"], ["run", "--workers=3", NAMED, "--", SCRIPT, PLAN]),
    (["draft", SCRIPT, "-o", "-"], ["draft", "-o=-", "--", SCRIPT]),
    (["test", SCRIPT, "--certificate", CERTIFICATE, "-k", "nobody"], ["-k=nobody", "test", NAMED, "--", SCRIPT]),
)
# Calls that are refused, with what has to be said of them, and the words of which none may be.
REFUSED = (
    (["check", "-1", "a"], "'-1' isn't a word of it;"),
    (["check", "-v", "a"], "'-v' isn't a word of it;"),
    (["test", "-x", "a"], "'-x' isn't a word of it;"),
    (["-v"], "'-v' isn't a word of it;"),
    (["watch", "a", "--changes", "-1"], "'-1' is no whole number"),
    (["run", "a", "b", "--workers", "0"], "'0' is no whole number of 1 to 64"),
    (["run", "a", "b", "--workers=65"], "'65' is no whole number of 1 to 64"),
    (["check", "a", "--pieces", "0"], "'0' is no whole number of 1 to 64"),
    (["check", "a", "--certificate="], "the name is empty"),
    (["check", "--formt=json", "a"], "(did you mean --format?)"),
    (["draft", "a", "a.certificate.json"], "(--certificate names a certificate)"),
    (["coverage", "a", "a.certificate.json"], "(--certificate names a certificate)"),
    (["check", "a", "b", "--certificate", "c"], "--certificate goes with one script"),
    (["check", "-", "-"], "standard input can be one file alone"),
)
# Commands that take a certificate as the file behind their script for another one.
TAKEN = (["check", SCRIPT, CERTIFICATE], ["why", SCRIPT, CERTIFICATE], ["run", SCRIPT, CERTIFICATE], ["check", CERTIFICATE])


def told(words: Sequence[object], **how) -> tuple[int, str, str]:
    """Status, output and standard error of a call."""
    result = subprocess.run([str(word) for word in words], capture_output=True, text=True, check=False, **how)
    return result.returncode, result.stdout, result.stderr


def of_same(tool: Path) -> Iterator[tuple[str, bool]]:
    """Calls that ask for the same in other words."""
    for first, *others in SAME:
        wanted = told([tool, *first])
        yield f"{first}: {wanted}", wanted[0] == 0 and bool(wanted[1])
        for words in others:
            found = told([tool, *words])
            yield f"{words}: {found}", found[:2] == wanted[:2]


def of_names(tool: Path, top: Path) -> Iterator[tuple[str, bool]]:
    """Files whose names begin as options do, and standard input."""
    shutil.copy(SCRIPT, top / "-a.toml")
    shutil.copy(CERTIFICATE, top / "--b.json")
    found = told([tool, "check", "--certificate=--b.json", "--", "-a.toml"], cwd=top)
    yield f"names like options: {found}", found[0] == 0 and found[1].startswith("-a.toml:") and found[1].endswith("yes 6 15 33\n")
    for words, path in ((["check", "-", NAMED], SCRIPT), (["check", SCRIPT, "--certificate=-"], CERTIFICATE), (["run", SCRIPT, NAMED, "--", "-"], PLAN)):
        found = told([tool, *words], input=path.read_text())
        yield f"{words}: {found}", found[0] == 0 and bool(found[1])


def of_refused(tool: Path) -> Iterator[tuple[str, bool]]:
    """Words that ask for nothing, and certificates in the place of other files."""
    for words, says in REFUSED:
        status, output, error = told([tool, *words])
        is_plain = "did you mean -" not in error.replace("did you mean --", "")
        yield f"{words}: {error}", (status, output, error.count("\n")) == (WORDS, "", 1) and says in error and is_plain
    for words in TAKEN:
        status, output, error = told([tool, *words])
        yield f"{words}: {error}", (status, output, error.count("\n")) == (UNREADABLE, "", 1) and "--certificate names it" in error


def of_notes(tool: Path) -> Iterator[tuple[str, bool]]:
    """The note on the program that answers, and how far a draft has come."""
    for words in (["check", SCRIPT, NAMED], ["why", SCRIPT, NAMED], ["run", SCRIPT, PLAN, NAMED], ["test", SCRIPT, NAMED], ["draft", SCRIPT, "-o", "-"]):
        loud, quiet = told([tool, *words]), told([tool, *words, "--quiet"])
        yield f"{words}: {loud[2]}", loud[0] == 0 and loud[2].count(NOTE) <= 1
        yield f"{words} --quiet: {quiet}", quiet[:2] == loud[:2] and NOTE not in quiet[2] and PROGRESS not in quiet[2] and "at their ends" not in quiet[2]


def tried(tool: Path, top: Path) -> Iterator[tuple[str, bool]]:
    """All trials."""
    top.mkdir()
    yield from of_same(tool)
    yield from of_names(tool, top)
    yield from of_refused(tool)
    yield from of_notes(tool)
