"""`mgtool watch`: checks a script again whenever it, its certificate or its scenario file changes, a block each, until it is interrupted. Behind a yes it runs
what the scenario file asks for. It is installed too, so it knows nothing of this repository."""
import os
import sys
import time
from pathlib import Path

from shared import asking
from shared.door import declarations, front, intents, kept
from shared.mistakes import toml_text
from shared.mistakes.nodes import Unread

# How many seconds lie between two looks at the files.
PAUSE = 1.0
# What asks the intents of a scenario file, and what runs its scenarios, where there is such a command.
INTENTS, SCENARIOS = ("coverage", "--brief"), ("test",)
YES = 0


def stamp(path):
    """What changes where a file does; none where there is none."""
    try:
        found = os.stat(path)
    except (OSError, ValueError):
        return None
    return found.st_mtime_ns, found.st_size, found.st_ino


def stamps(paths):
    """The same of files."""
    return {path: stamp(path) for path in paths}


class Watched:
    """The files of a script that are watched, and what is called on them."""

    def __init__(self, asked, find):
        beside = kept.Beside(asked.script)
        self.find, self.scenarios = find, beside.scenarios
        self.script = Path(asked.script)
        self.is_named = asked.certificate is not None
        self.certificate = Path(asked.certificate) if self.is_named else beside.certificate
        self.words = [asked.script, *(["--certificate", asked.certificate] if self.is_named else [])]

    def files(self):
        """The files, each once."""
        return [*dict.fromkeys((self.script, self.certificate, self.scenarios))]

    def asked(self):
        """The command that the scenario file asks for, which tells its mistakes too: where it has nothing but intents, these are asked briefly."""
        if not self.scenarios.exists():
            return []
        try:
            keys = {*toml_text.read(self.scenarios.read_bytes()).value}
        except (OSError, Unread):
            return [INTENTS]
        return [INTENTS if keys <= {intents.KEY} else SCENARIOS]

    def status_of(self, name, *words):
        """Calls a command on the script; the status with which it ends. What no change of these files mends ends the tool."""
        try:
            return front.called(declarations.TOOL, declarations.command(name), [*self.words, *words], self.find)
        except SystemExit as ended:
            if ended.code != asking.FILES:
                raise
            return ended.code

    def block(self):
        """Checks the script, and behind a yes does what its scenario file asks for; the status."""
        print(f"{time.strftime('%H:%M:%S')} {self.script}", flush=True)
        statuses = [self.status_of("check")]
        if statuses == [YES]:
            statuses += [self.status_of(*command) for command in self.asked()]
        sys.stdout.flush()
        return max(statuses)

    def told(self):
        """Tells a block; the status, and how the files stood that it is about: a certificate that is kept as the check left it, all others as they stood
        before, so that what changes meanwhile is looked at again."""
        before = stamps(self.files())
        status = self.block()
        return status, before if self.is_named else {**before, **stamps([self.certificate])}

    def wait(self, seen):
        """Waits until the files stand otherwise than so."""
        while stamps(self.files()) == seen:
            time.sleep(PAUSE)


def done(asked, find):
    """Watches what is asked for; gives the status: that of the last check where changes are counted, else that of a yes once it is interrupted."""
    if declarations.STANDARD in (asked.script, asked.certificate):
        asked.refuse("standard input can't be watched")
    watched, left = Watched(asked, find), None if asked.changes is None else int(asked.changes)
    try:
        status, seen = watched.told()
        while left is None or left > 0:
            watched.wait(seen)
            print(flush=True)
            status, seen = watched.told()
            left = None if left is None else left - 1
    except KeyboardInterrupt:
        return YES
    return status
