"""Runs a program with what tests/refuse.c refuses it: growths of memory, reads of standard input, writes to standard output."""
import contextlib
import os
import subprocess
import sys
import tempfile
from collections import namedtuple
from pathlib import Path

from gate import limits
from shared import programs

SOURCE = programs.TOP / "tests" / "refuse.c"
NO_MEMORY = 4, b"no memory\n"


def proved():
    """The proved program, without which there is nothing to try."""
    if not programs.PROVED.exists() or programs.is_older(programs.PROVED):
        sys.exit("the program isn't there, or is older than its sources: make prove")
    return programs.PROVED


class Result:
    """What a process came to: its status, its output, its standard error, and whether something was refused."""

    def __init__(self, status, output, error, refused):
        self.status, self.output, self.error, self.refused = status, output, error, refused

    def told(self):
        return self.status, self.output

    def silent(self):
        """Whether no text of a panic was written, and no signal ended it."""
        return not self.error and self.status is not None and self.status >= 0

    def __str__(self):
        return f"{self.status} {self.output[-200:]!r} {self.error[-200:]!r}, {'something' if self.refused else 'nothing'} refused"


class Trial(namedtuple("Trial", "status was_refused is_whole is_front is_no_memory noise")):
    """What a process came to of which one growth was refused: its status, or less than 0 the signal that ended it; whether there was such a growth; whether
    it wrote what it writes otherwise, or a front of that, or that memory ran out; and how many bytes of standard error."""

    def told(self, status):
        """Whether it told what it tells otherwise, with that status."""
        return bool(self.is_whole) and self.status == status

    def ran_out(self):
        """Whether it said that memory ran out, with that status."""
        return bool(self.is_no_memory) and self.status == NO_MEMORY[0]

    def silent(self):
        """Whether no text of a panic was written, and no signal ended it."""
        return not self.noise and self.status >= 0


class Refusing:
    """A program with what is preloaded into it."""

    def __init__(self, library):
        self.library = library

    def run(self, command, given=b"", stdin=None, stdout=subprocess.PIPE, **refusal):
        """Runs a command with an input, or with a file as standard input, and refuses it what is named, as `call=7` does the eighth growth."""
        told, tells = os.pipe()
        environment = {"LD_PRELOAD": str(self.library), "REFUSE_TELL": str(tells)}
        environment.update({f"REFUSE_{name.upper()}": str(value) for name, value in refusal.items()})
        source = {"input": given} if stdin is None else {"stdin": stdin}
        devices = {**source, "stdout": stdout, "stderr": subprocess.PIPE, "pass_fds": [tells]}
        result = limits.run([str(word) for word in command], **devices, env=environment)
        status, output, error = result.returncode, result.stdout or b"", result.stderr
        os.close(tells)
        refused = os.read(told, 1) == b"r"
        os.close(told)
        return Result(status, output, error, refused)

    def each(self, command, given, wanted):
        """Runs a command with each growth of memory refused in turn, in a process of its own, until there is none of that number, which is the last trial;
        otherwise it writes what is wanted."""
        with tempfile.TemporaryDirectory() as folder:
            files = {name: Path(folder) / name for name in ("given", "wanted", "instead")}
            for path, text in zip(files.values(), (given, wanted, NO_MEMORY[1])):
                path.write_bytes(text)
            told, tells = os.pipe()
            environment = {"LD_PRELOAD": str(self.library), "REFUSE_EACH": str(tells)}
            environment.update({f"REFUSE_{name.upper()}": str(files[name]) for name in ("wanted", "instead")})
            with open(files["given"], "rb") as source, os.fdopen(told) as lines:
                words = [str(word) for word in command]
                with subprocess.Popen(words, stdin=source, stdout=subprocess.DEVNULL, pass_fds=[tells], env=environment) as process:
                    os.close(tells)
                    trials = [Trial(*map(int, line.split())) for line in lines]
        if process.returncode or not trials or trials[-1].was_refused:
            raise RuntimeError(f"the growths of {command} weren't refused to the last")
        return trials


@contextlib.contextmanager
def refusing():
    """The preloaded library, built for as long as it is used."""
    with tempfile.TemporaryDirectory() as folder:
        library = Path(folder) / "refuse.so"
        subprocess.run(["cc", "-O2", "-shared", "-fPIC", "-o", library, SOURCE], check=True)
        yield Refusing(library)
