"""Trials of check_all.sh: the names that certificates and scenarios may have beside a script, answers that can't be written, and its options."""
import os
import shutil
import subprocess
from collections.abc import Iterator, Sequence
from pathlib import Path

from shared.programs import TOP

PIPELINE, HOTLINE, SHIELD = TOP / "examples" / "pipeline", TOP / "gallery" / "hotline", TOP / "examples" / "shield"
CHECK_ALL = PIPELINE / "check_all.sh"
YES, NO = "yes 6 15 33", "no K3 entry=3 point=0 step=-"
UNREADABLE, UNWRITTEN = 3, 6
# What a scenario of the hotline expects, and what it can't be.
EXPECTED, OTHER = 'state = "answer", hears', 'state = "ring", hears'


class Runner:
    """Calls commands in a folder, with the programs of this checkout."""

    def __init__(self, program: Path, folder: Path) -> None:
        self.folder = folder
        self.environment = {**os.environ, "MGCALL": str(program), "MGTOOL": str(TOP / "tools" / "mgtool")}

    def call(self, words: Sequence[object], **how) -> tuple[int, str, str]:
        """Status, output and standard error of a command line."""
        how = {"stdout": subprocess.PIPE, "env": self.environment, **how}
        result = subprocess.run([str(word) for word in words], cwd=self.folder, stderr=subprocess.PIPE, text=True, check=False, **how)
        return result.returncode, result.stdout, result.stderr

    def check(self, *words: object, **how) -> tuple[int, str]:
        """Status and output of check_all.sh."""
        return self.call([CHECK_ALL, *words], **how)[:2]


def put(folder: Path, stem: str, certificate: str, source: Path = HOTLINE) -> None:
    """Copies a script and its certificate into a folder under these names."""
    folder.mkdir(parents=True, exist_ok=True)
    shutil.copy(source / "script.toml", folder / f"{stem}.toml")
    shutil.copy(source / "certificate.json", folder / certificate)


def put_scenarios(folder: Path, stem: str, old: str = "", new: str = "") -> None:
    """Writes the scenarios of the hotline into a folder, with one text in the place of another."""
    text = (HOTLINE / "script.scenarios.toml").read_text()
    (folder / f"{stem}.scenarios.toml").write_text(text.replace(old, new, 1) if old else text)


def of_layouts(run: Runner) -> Iterator[tuple[str, bool]]:
    """The certificate that mgtool writes, and scenarios that pass, fail, have an error, or can't be run."""
    put(run.folder / "kept", "my", "my.certificate.json")
    yield "a certificate that mgtool wrote", run.check("kept") == (0, f"kept/my.toml: {YES}\n")
    put(run.folder / "both", "script", "script.certificate.json")
    put(run.folder / "both", "my", "my.json")
    (run.folder / "both" / "my.certificate.json").write_text("{}")
    yield "both layouts in a folder", run.check("both") == (0, f"both/my.toml: {YES}\nboth/script.toml: {YES}\n")
    for stem, certificate in (("my", "my.certificate.json"), ("script", "certificate.json")):
        folder = run.folder / f"tried_{stem}"
        put(folder, stem, certificate)
        put_scenarios(folder, stem)
        line, name = f"{folder.name}/{stem}.toml: {YES}\n", f"{folder.name}/{stem}.scenarios.toml"
        yield f"scenarios of {stem}.toml", run.check(folder.name) == (0, f"{line}{name}: 4 passed, 0 failed\n")
        put_scenarios(folder, stem, EXPECTED, OTHER)
        found = run.check("--junit", "out.xml", "--sarif", "out.sarif", folder.name)
        yield f"a scenario of {stem}.toml that fails: {found}", found == (1, f"{line}{name}: 3 passed, 1 failed, from line 15\n")
        failure = f'name="{name}" file="{name}"><failure type="scenario" message="3 passed, 1 failed, from line 15">'
        yield "a scenario that fails, as JUnit XML", failure in (run.folder / "out.xml").read_text()
        yield "a scenario that fails, as SARIF", '"startLine": 15' in (run.folder / "out.sarif").read_text()
        put_scenarios(folder, stem, "[[scenario]]", "[[scenari]]")
        status, output = run.check(folder.name)
        yield f"scenarios of {stem}.toml with an error: {output}", status == UNREADABLE and output.startswith(f"{line}{name}: ") and "scenari" in output
        missing = run.check(folder.name, env={**run.environment, "MGTOOL": "./nowhere"})
        yield f"scenarios without mgtool: {missing}", missing[0] == 127 and missing[1].startswith(f"{line}{name}: ")
    put(run.folder / "no", "script", "certificate.json", SHIELD)
    put_scenarios(run.folder / "no", "script")
    yield "scenarios of a no", run.check("no") == (1, f"no/script.toml: {NO}\n")


def of_lost_answers(run: Runner) -> Iterator[tuple[str, bool]]:
    """Answers that can't be written: to a full device, to no output at all, and to a file for a forge."""
    put(run.folder / "one", "my", "my.json")
    for shell in ("sh", "bash"):
        with open("/dev/full", "w") as full:
            status, _, error = run.call([shell, CHECK_ALL, "one"], stdout=full)
        yield f"{shell}: a full device: {status}, {error}", status == UNWRITTEN and error.endswith("answers could not be written: standard output\n")
        status, _, error = run.call([shell, "-c", f"{shell} {CHECK_ALL} one >&-"])
        yield f"{shell}: no output: {status}, {error}", status == UNWRITTEN and error.endswith("answers could not be written: standard output\n")
    for option in ("--junit", "--sarif", "--codequality"):
        status, output, error = run.call([CHECK_ALL, option, "/dev/full", "one"])
        is_said = error.endswith("\n/dev/full: No space left on device\n")
        yield f"{option} /dev/full: {error}", (status, output) == (UNWRITTEN, f"one/my.toml: {YES}\n") and is_said
    found = run.call([CHECK_ALL, "--junit", "/dev/full", "--sarif", "out.sarif", "one"])
    yield "a file behind one that can't be written", found[0] == UNWRITTEN and (run.folder / "out.sarif").is_file()


def of_options(run: Runner) -> Iterator[tuple[str, bool]]:
    """Options with their value in one word, and the end of options."""
    put(run.folder / "-one", "my", "my.json")
    found = run.check("--junit=out.xml", "--sarif", "out.sarif", "--", "-one")
    yield f"options: {found}", found == (0, f"./-one/my.toml: {YES}\n") and all((run.folder / name).is_file() for name in ("out.xml", "out.sarif"))
    for words in (["--junit="], ["--junit=out.xml"], ["--"], ["--junit", "", "one"], ["-x", "one"]):
        yield f"check_all.sh {words}", run.check(*words) == (2, "")


def of_rule(run: Runner) -> Iterator[tuple[str, bool]]:
    """The rule for make, with the certificate that mgtool writes."""
    asked = ["make", "-s", "-f", PIPELINE / "scripts.mk", f"MGCALL={run.environment['MGCALL']}", "my.checked"]
    environment = {name: value for name, value in run.environment.items() if not name.startswith(("MAKE", "MFLAGS"))}
    put(run.folder, "my", "my.certificate.json")
    made = run.folder / "my.checked"
    yield "a rule with a certificate of mgtool", run.call(asked, env=environment)[0] == 0 and made.read_text() == f"{YES}\n"
    yield "the same again", run.call(asked, env=environment)[0] == 0 and made.is_file()
    (run.folder / "my.certificate.json").unlink()
    yield "the same without the certificate", run.call(asked, env=environment)[0] != 0 and not made.exists()


def tried(program: Path, top: Path) -> Iterator[tuple[str, bool]]:
    """All trials, each part in a folder of its own."""
    for part in (of_layouts, of_lost_answers, of_options, of_rule):
        folder = top / part.__name__
        folder.mkdir(parents=True)
        yield from part(Runner(program, folder))

