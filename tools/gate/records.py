"""What was refused, as the repository has it: beside edits stands a file `refused`. Its first line is the checksum of all that they are judged by, and then
comes a line for each edit that was refused: its name and its own checksum. Where the first line is another, none of them counts. A tool tries what a record
lacks, and of the rest a sample that goes by the commit, so that a line that no run wrote is found out sooner or later."""
import hashlib
import random
import re
import subprocess
import sys
import time

from shared import crates

ANEW = "--anew"
LINE = re.compile(r"(\S+) ([0-9a-f]{64})")
LETTER = re.compile(r"^(rattle-kit-\d+)[a-z]+\b")
TOOLS = crates.TOP / "tools"
IMPORT = re.compile(r"^from (gate|shared) import (.+)$", re.MULTILINE)


def words():
    """The words that the tool was given, but for those that begin with a dash."""
    return [word for word in sys.argv[1:] if not word.startswith("-")]


def is_anew():
    """Whether all is to be tried, whatever was refused before."""
    return ANEW in sys.argv[1:]


def digest(*parts):
    """The checksum of texts and bytes, each with its length, so that no two lists come to one."""
    whole = hashlib.sha256()
    for part in parts:
        data = part if isinstance(part, bytes) else str(part).encode()
        whole.update(f"{len(data)}:".encode() + data)
    return whole.hexdigest()


def kit():
    """What stands for the toolchain: the line that names it with the sum of its logic. The letter behind a kit's number is left out, so that a record lives on
    where a build of the same kit takes the place of another."""
    line = subprocess.run([crates.kit() / "bin" / "rt", "version"], capture_output=True, text=True, check=True).stdout.strip()
    return LETTER.sub(r"\1", line)


def of_files(root, *parts):
    """The checksum of all files in these parts of a folder, with their paths; a part that isn't there has none."""
    paths = sorted(path for part in parts for path in (root / part).rglob("*") if path.is_file())
    return digest(*(word for path in paths for word in (path.relative_to(root), path.read_bytes())))


def of_tools(name):
    """The checksum of the tool of the gate that judges edits, with all of tools/ that it imports, by their paths."""
    files, left = set(), [TOOLS / "gate" / name]
    while left:
        path = left.pop()
        if path not in files:
            files.add(path)
            left += [TOOLS / folder / f"{module}.py" for folder, names in IMPORT.findall(path.read_text()) for module in names.split(", ")]
    return digest(*(word for path in sorted(files) for word in (path.relative_to(TOOLS), path.read_bytes())))


def sample(names, size):
    """So many of the names, or all where they are fewer: evenly spread over their groups, which stand before a slash, and chosen by the commit."""
    commit = subprocess.run(["git", "rev-parse", "HEAD"], cwd=crates.TOP, capture_output=True, text=True, check=False).stdout.strip()
    chance = random.Random(commit)
    place = {name: chance.random() for name in sorted(names)}
    order = sorted(names, key=lambda name: (name.partition("/")[0], place[name]))
    step = max(1.0, len(order) / size)
    start = chance.random() * step
    return {order[int(start + number * step)] for number in range(size) if int(start + number * step) < len(order)}


def chosen(every, kept, named, size):
    """The names that are to be tried: those that the tool was given, or else all that no record has, and a sample of the others."""
    if unknown := sorted(named - every):
        sys.exit(f"no edit has the name {', '.join(unknown)}")
    if named or is_anew():
        return named or every
    return every - kept | sample(kept, size)


class Record:
    """What was refused of the edits of a folder, each named with its checksum, under the checksum of what they are judged by."""

    def __init__(self, folder, ground, sums):
        self.path, self.ground, self.sums = folder / "refused", ground, sums
        lines = self.path.read_text().splitlines() if self.path.exists() else []
        told = dict(found.groups() for line in lines[1:] if (found := LINE.fullmatch(line)))
        is_of_these = lines[:1] == [ground]
        self.refused = {name for name in sums if is_of_these and told.get(name) == sums[name]}

    def note(self, name, is_refused):
        """Notes how an edit was judged, and writes the record if that is new."""
        self.refused = self.refused | {name} if is_refused else self.refused - {name}
        text = "".join(f"{line}\n" for line in [self.ground, *(f"{name} {self.sums[name]}" for name in sorted(self.refused))])
        if not self.path.exists() or self.path.read_text() != text:
            self.path.write_text(text)


class Progress:
    """Tells on standard error how far a tool has come."""

    def __init__(self, total):
        self.total, self.done, self.begun = total, 0, time.monotonic()

    def add(self, what, count):
        """So many more are done, of this; nothing is told of none."""
        if not count:
            return
        self.done += count
        print(f"{what}: {self.done} of {self.total}, {(time.monotonic() - self.begun) / 60:.1f} minutes", file=sys.stderr, flush=True)


def told(tool, answers, recorded):
    """Prints how each edit was judged, by its name, how many the record had, and last what isn't as it should be, with the command that shows it
    again; returns the status."""
    for name in sorted(name for name, fault in answers.items() if not fault):
        print(f"{name}: refused")
    print(f"{recorded} taken from the record")
    return ended({name: f"{fault} (tools/gate/{tool} {name})" for name, fault in answers.items() if fault}, len(answers) + recorded)


def looked(faults):
    """Prints which edits don't fit, of all that were looked at; returns the status."""
    return ended({name: fault for name, fault in faults.items() if fault}, len(faults))


def ended(faults, count):
    """Prints what failed, of so many, and the last line; returns the status."""
    for name in sorted(faults):
        print(f"failed: {name}: {faults[name]}")
    print(f"{count - len(faults)} passed, {len(faults)} failed")
    return 1 if faults or not count else 0
