"""How long the parts of the tests let a program go on: by the processor time that it takes, never by the clock, so that no trial fails since a machine is busy.
A limit has ample room. It is for a program that would go on for ever; one that waits for ever takes no processor time, and is ended by whoever runs the tests."""
import contextlib
import re
import resource
import signal
import subprocess
from pathlib import Path
from typing import Any

from shared.programs import TOP

# The processor time that a process may take, in seconds.
SECONDS = 3600
# How a process ends that took more.
ENDED_BY = (-signal.SIGXCPU, -signal.SIGKILL)

# How a line gives a process so many seconds of the clock: a timeout of subprocess's, or one that it takes from a dictionary of words.
BY_CLOCK = re.compile(r"\btimeout=|[\"']timeout[\"']:")


def limit(process: "subprocess.Popen[Any]", seconds: int = SECONDS) -> None:
    """Limits the processor time of a process, and of each that it starts from here on, unless it has ended."""
    with contextlib.suppress(ProcessLookupError):
        resource.prlimit(process.pid, resource.RLIMIT_CPU, (seconds, seconds + 5))


def run(words: Any, *, capture_output: bool = False, check: bool = False, seconds: int = SECONDS, **how: Any) -> "subprocess.CompletedProcess[Any]":
    """Runs a command as subprocess.run does, with so much processor time. `wall` limits the seconds of the clock too, where a program that waits for ever is
    what is tried."""
    given, wall = how.pop("input", None), how.pop("wall", None)
    if capture_output:
        how |= {"stdout": subprocess.PIPE, "stderr": subprocess.PIPE}
    if given is not None:
        how["stdin"] = subprocess.PIPE
    with subprocess.Popen(words, **how) as process:
        try:
            limit(process, seconds)
            output, error = process.communicate(given, timeout=wall)
        except BaseException:
            process.kill()
            raise
    result = subprocess.CompletedProcess(process.args, process.returncode, output, error)
    if check:
        result.check_returncode()
    return result


def took_too_long(status: int) -> bool:
    """Whether a process ended as one does that took more processor time than it may."""
    return status in ENDED_BY


def by_the_clock() -> "list[str]":
    """The lines of the tests that give a process so many seconds of the clock, but for those that say why."""
    found = []
    for path in sorted((TOP / "tools" / "gate").iterdir()):
        if path.is_file() and path.name != Path(__file__).name:
            lines = path.read_text(encoding="utf-8").splitlines()
            found += [f"{path.relative_to(TOP)}:{at}" for at, line in enumerate(lines, 1) if BY_CLOCK.search(line)]
    return found
