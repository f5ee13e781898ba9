"""Trials of `--proved`: `mgtool` and check_all.sh say whether the program that answers is proved, and with `--proved` one that isn't gives no answer."""
import os
import shutil
import subprocess
from collections import namedtuple
from collections.abc import Iterator
from pathlib import Path

from gate import installing
from shared.programs import TOP

WATCH = TOP / "examples" / "watch"
SCRIPT, CERTIFICATE, PLAN = (WATCH / name for name in ("script.toml", "certificate.json", "plan.toml"))
CHECK_ALL = TOP / "examples" / "pipeline" / "check_all.sh"
NOT_PROVED, NO_PROGRAM = 69, 127
NAMED = ["--certificate", CERTIFICATE]
# Calls of mgtool that ask a program, with --proved anywhere.
ASKS = (
    ["check", SCRIPT, *NAMED, "--proved"],
    ["--proved", "why", SCRIPT, *NAMED],
    ["run", "--proved", SCRIPT, PLAN, *NAMED],
    ["draft", SCRIPT, "-o", "-", "--proved"],
    ["check", "--proved", TOP / "gallery" / "first" / "mistake_key" / "script.toml"],
)
LINES = f"{SCRIPT}: yes 5 8 21\n{PLAN}: as {WATCH / 'report'}\n"
# What a call came to.
Seen = namedtuple("Seen", "status output error")


def told(words: list[object], **more: str) -> Seen:
    """What a call comes to."""
    result = subprocess.run(list(map(str, words)), env={**os.environ, **more}, stdin=subprocess.DEVNULL, capture_output=True, text=True, check=False)
    return Seen(result.returncode, result.stdout, result.stderr)


def refuses(seen: Seen, status: int = NOT_PROVED) -> bool:
    """Whether a call gave no answer, and said that --proved is why."""
    return (seen.status, seen.output) == (status, "") and "--proved takes a proved program alone" in seen.error and "Traceback" not in seen.error


def of_tool(tool: Path, is_proved: bool) -> Iterator[tuple[str, bool]]:
    """What mgtool says where its programs are proved, or aren't."""
    kind = "proved" if is_proved else "not proved"
    for words in ASKS:
        seen = told([tool, *words])
        holds = seen.status in (0, 3) and seen.output and not seen.error.count("is not proved") if is_proved else refuses(seen) and seen.error.count("\n") == 1
        yield f"{tool.name} {' '.join(map(str, words))}, {kind}: {seen}", bool(holds)
    plain, insisting = told([tool, "--version"]), told([tool, "--version", "--proved"])
    yield f"{tool.name} --version --proved, {kind}: {insisting}", insisting[:2] == (0 if is_proved else NOT_PROVED, plain.output) and bool(plain.output)
    yield f"{tool.name} picture, {kind}", told([tool, "picture", SCRIPT, "--proved"])[::2] == (0, "")
    wrong = told([tool, "check", "--proved", "--pieces", "0", SCRIPT])
    yield f"{tool.name} with wrong words, {kind}: {wrong}", wrong.status == 2


def of_script(program: Path, kind: str, where: str) -> Iterator[tuple[str, bool]]:
    """What check_all.sh says of a program of a kind, with and without --proved."""
    plain, insisting = (told([CHECK_ALL, *words, WATCH], MGCALL=str(program)) for words in ([], ["--proved"]))
    yield f"check_all.sh and a program {where}: {plain}", plain[:2] == (0, LINES) and f"check_all.sh: {program} is {kind}\n" in plain.error
    holds = insisting[:2] == (0, LINES) if kind == "proved" else refuses(insisting)
    yield f"check_all.sh --proved and a program {where}: {insisting}", holds and f"check_all.sh: {program} is {kind}\n" in insisting.error


def of_programs(root: Path, top: Path) -> Iterator[tuple[str, bool]]:
    """What check_all.sh says of programs as they are installed, below a link, and by themselves; `top` is a folder for these."""
    program, mark = root / "bin" / "mgcall", root / "lib" / "mgcall" / "not-proved"
    top.mkdir()
    (top / "linked").symlink_to(program)
    shutil.copy(program, top / "mgcall")
    for kind in ("not proved", "proved"):
        if kind == "proved":
            mark.unlink()
        else:
            mark.write_text("not proved\n")
        yield from of_script(program, kind, "that is installed")
        yield from of_script(top / "linked", kind, "below a link")
        yield from of_tool(root / "bin" / "mgtool", kind == "proved")
    yield from of_script(top / "mgcall", "of unknown origin", "by itself")
    absent = told([CHECK_ALL, "--proved", WATCH], MGCALL=str(top / "nowhere"))
    yield f"check_all.sh --proved without a program: {absent}", refuses(absent, NO_PROGRAM)


def tried(root: Path, top: Path) -> Iterator[tuple[str, bool]]:
    """All trials; the mark of the root is as it was in the end."""
    yield from of_tool(TOP / "tools" / "mgtool", installing.are_proved())
    mark = root / "lib" / "mgcall" / "not-proved"
    text = mark.read_text() if mark.exists() else None
    yield from of_programs(root, top)
    if text is not None:
        mark.write_text(text)
