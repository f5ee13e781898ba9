"""How tools/test follows its parts while they run: it prints a failure when it happens, and once a minute in which nothing was printed what is running. What
isn't installed is named with the command that installs it."""
import re
import subprocess
import threading
import time
from pathlib import Path

# After how many seconds without a line what is running is printed, and how a line on a failure begins.
QUIET, FAILED = 60.0, "failed: "
# The package of Debian that has what a part lacks, by the word that the part prints.
PACKAGES = {
    "man": "man-db", "zsh": "zsh", "fish": "fish", "chromium": "chromium", "g++": "g++", "Jinja2": "python3-jinja2", "python3-jinja2": "python3-jinja2",
    "graphviz": "graphviz", "Graphviz": "graphviz", "python3-jsonschema": "python3-jsonschema", "python3-yaml": "python3-yaml", "erlang-megaco": "erlang-megaco",
    "tshark": "tshark",
}
LACKING = re.compile(r"left out, since (.*?)(?:: |$)")


class Running:
    """The parts that run now, and when a line was printed last."""

    def __init__(self) -> None:
        self.names: dict[str, float] = {}
        self.lock, self.last, self.is_done = threading.Lock(), time.monotonic(), threading.Event()

    def say(self, line: str) -> None:
        """Prints a line."""
        with self.lock:
            print(line, flush=True)
            self.last = time.monotonic()

    def watch(self) -> None:
        """Prints what is running whenever nothing was printed for a while, until all is done."""
        while not self.is_done.wait(max(0.01, self.last + QUIET - time.monotonic())):
            if self.names and time.monotonic() - self.last >= QUIET:
                self.say("running: " + ", ".join(f"{name} {time.monotonic() - begun:.0f} s" for name, begun in list(self.names.items())))

    def follow(self, name: str, command: list[str], top: Path) -> "tuple[int, str]":
        """Runs a part to its end: its status, and what it printed. A line on a failure is printed at once."""
        self.names[name], lines = time.monotonic(), []
        how = {"stdout": subprocess.PIPE, "stderr": subprocess.STDOUT, "text": True, "errors": "replace"}
        with subprocess.Popen(command, cwd=top, **how) as process:
            for line in process.stdout or ():
                lines.append(line)
                if line.startswith(FAILED):
                    self.say(f"{name}: {line.rstrip()}")
        del self.names[name]
        return process.returncode, "".join(lines)


def installs(line: str) -> str:
    """The command that installs what a line says is lacking; nothing if no package has it."""
    found = LACKING.search(line)
    words = re.findall(r"[\w+-]+", found[1]) if found else []
    packages = [*dict.fromkeys(PACKAGES[word] for word in words if word in PACKAGES)]
    return f"apt-get install {' '.join(packages)}" if packages else ""
