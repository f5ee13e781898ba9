"""The programs that a command has started. A signal that ends the command ends them first, each with all that it started, so that no program goes on without
it. It is installed too, so it knows nothing of this repository."""
import contextlib
import os
import signal
import subprocess
from collections.abc import Iterator
from types import FrameType

# The signals that end a command from outside. One that is ignored as the command begins stays ignored.
ENDING = (signal.SIGHUP, signal.SIGINT, signal.SIGTERM)


class Ending(Exception):
    """The command is being ended, and starts nothing more."""


class Children:
    """The programs that run now; `is_ending` once a signal ends the command."""

    def __init__(self) -> None:
        self.running: dict[subprocess.Popen[bytes], bool] = {}
        self.is_ending = False

    def look(self) -> None:
        """Raises `Ending` if the command is being ended."""
        if self.is_ending:
            raise Ending

    @contextlib.contextmanager
    def started(self, process: "subprocess.Popen[bytes]", is_leader: bool = False) -> Iterator["subprocess.Popen[bytes]"]:
        """Knows of a program while it runs. The program is ended however this is left; if it leads a session of its own, all that it started is too."""
        self.running[process] = is_leader
        try:
            self.look()
            yield process
        finally:
            kill(process, is_leader)
            process.wait()
            self.running.pop(process)

    def end_all(self) -> None:
        """Ends every program, and lets no other begin: one that is starting in another thread finds `is_ending` as soon as it is known here."""
        self.is_ending = True
        for process, is_leader in list(self.running.items()):
            kill(process, is_leader)


CHILDREN = Children()


def kill(process: "subprocess.Popen[bytes]", is_leader: bool) -> None:
    """Kills a program, or the session that it leads."""
    with contextlib.suppress(ProcessLookupError, PermissionError):
        if is_leader:
            os.killpg(process.pid, signal.SIGKILL)
        else:
            process.kill()


def ended(number: int, frame: FrameType | None) -> None:
    """Ends the command as a signal would, with its programs, and takes away what is written by half."""
    del frame
    CHILDREN.end_all()
    if number == signal.SIGINT:
        raise KeyboardInterrupt
    raise SystemExit(128 + number)


def heed_signals() -> None:
    """Lets these signals end the command with its programs."""
    for number in ENDING:
        if signal.getsignal(number) in (signal.SIG_DFL, signal.default_int_handler):
            signal.signal(number, ended)
