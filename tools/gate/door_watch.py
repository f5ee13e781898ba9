"""Trials of `mgtool watch`: a block for each change of the script, its certificate and its scenario file; what mends nothing by itself ends no watching; an
interruption does, with status 0."""
import re
import shutil
import signal
import subprocess
import time

from gate import limits
from shared import asking
from shared.programs import TOP

HOTLINE = TOP / "gallery" / "hotline"
# How many seconds of the clock a block may take: a tool that has stopped watching takes no processor time, and that is what is tried here.
PATIENCE = 3600
HEAD = re.compile(r"^\d\d:\d\d:\d\d .*my\.toml$", re.MULTILINE)
SILENT = "[intents.answer]\nsilent = true\n"


class Watching:
    """A script that is watched in a folder of its own, and what has been told so far."""

    def __init__(self, tool, folder):
        folder.mkdir()
        self.tool, self.script, self.certificate = tool, folder / "my.toml", folder / "my.certificate.json"
        self.scenarios, self.log = folder / "my.scenarios.toml", folder / "told"
        shutil.copy(HOTLINE / "script.toml", self.script)
        shutil.copy(HOTLINE / "certificate.json", self.certificate)
        self.blocks, self.work = 0, None

    def begin(self):
        """Begins to watch."""
        signal.signal(signal.SIGINT, signal.default_int_handler)
        with open(self.log, "w") as log:
            self.work = subprocess.Popen([self.tool, "watch", self.script], stdout=log, stderr=subprocess.STDOUT)

    def next(self, says):
        """Whether the next block comes, and ends with a line that has this."""
        self.blocks += 1
        end = time.monotonic() + PATIENCE
        while time.monotonic() < end and self.work.poll() is None:
            parts = HEAD.split(self.log.read_text())
            if len(parts) > self.blocks and says in parts[self.blocks]:
                return len(parts) == self.blocks + 1
            time.sleep(0.2)
        return False

    def once(self, *words):
        """The status of watching without a change, and what is told."""
        result = limits.run([self.tool, "watch", *words], capture_output=True, text=True, check=False)
        return result.returncode, result.stdout + result.stderr


def changes(watching):
    """What is changed, one after the other: what it is, how, and what the block has to say."""
    text, entries = watching.script.read_text(), watching.certificate.read_text()
    yield "a mistake", lambda: watching.script.write_text(text.replace("timer", "timeout")), "script fault 2 BadKey"
    yield "the script is taken away", watching.script.unlink, "No such file"
    yield "the script as it was", lambda: watching.script.write_text(text), "yes 6 15 33"
    yield "intents that don't hold", lambda: watching.scenarios.write_text(SILENT), "[intent silent]"
    yield "a certificate without entries", lambda: watching.certificate.write_text('{"version":2,"entries":[\n]}\n'), "no K1 entry=- point=- step=-"
    yield "the certificate as it was", lambda: watching.certificate.write_text(entries), "[intent silent]"
    yield "no intents", watching.scenarios.unlink, "yes 6 15 33"


def of_changes(watching):
    """A block for each change, and the end."""
    watching.begin()
    try:
        yield f"watch: {watching.log.read_text()}", watching.next("yes 6 15 33")
        for name, change, says in changes(watching):
            change()
            yield f"watch, {name}: {watching.log.read_text()}", watching.next(says)
    finally:
        watching.work.send_signal(signal.SIGINT)
        status = watching.work.wait(PATIENCE)
    yield f"watch, interrupted: status {status}", status == 0


def tried(tool, top):
    """All trials, each with what is said where it fails."""
    watching = Watching(tool, top / "watched")
    yield from of_changes(watching)
    for name, words, status, says in (
        ("no change", [watching.script, "--changes", "0"], 0, "yes 6 15 33"),
        ("a no", [HOTLINE / "twin" / "script.toml", "--certificate", HOTLINE / "twin" / "certificate.json", "--changes", "0"], 1, "no K3 "),
        ("no file", [top / "nowhere.toml", "--changes", "0"], asking.FILES, "No such file"),
        ("a certificate that isn't there", [watching.script, "--certificate", top / "nowhere", "--changes", "0"], asking.FILES, "No such file"),
        ("standard input", ["-", "--changes", "0"], asking.WORDS, "standard input can't be watched"),
    ):
        found = watching.once(*words)
        yield f"watch, {name}: {found}", found[0] == status and says in found[1]
