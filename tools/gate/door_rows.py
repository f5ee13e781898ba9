"""The rows of tests/mgtool/checks.rows: what `mgtool check` tells of a script, and where. Each line but the last is one that an editor can follow."""
import re
import shlex
from collections import namedtuple

from shared.programs import TOP

ROWS = TOP / "tests" / "mgtool" / "checks.rows"
# A line as compilers write it.
LINE = re.compile(r"(?P<file>.+?):(?P<line>\d+):(?P<column>\d+): (?P<severity>error|warning|note): (?P<text>.+)")
TOLD = re.compile(r"(script|certificate|intents) (\d+):(\d+) (error|warning|note)((?: \| [^|]+)*)")
# The rules of a telephone that is forgotten, of which nearly each script has one.
FORGOTTEN = re.compile(r"\[(lifted_at_end|lifted_in_silence|heard_put_down)\]")
# What is told of a place: the file by its kind, the place, how grave it is, and the text or, of a row, what stands in it.
Told = namedtuple("Told", "kind line column severity says")


def rows(path=ROWS):
    """The rows of a file, each as its keys with their values."""
    text = "\n".join(line for line in path.read_text().splitlines() if not line.startswith("#"))
    for block in filter(None, re.split(r"\n\n+", text.strip("\n"))):
        row = {}
        for line in block.splitlines():
            key, _, value = line.partition(": ")
            row.setdefault(key, []).append(value)
        yield row


def turned(text, puts):
    """A text with what is put into it."""
    for put in puts:
        old, new = (part.replace("\\n", "\n") for part in put.split(" => "))
        if text.count(old) != 1:
            raise ValueError(f"{old!r} stands {text.count(old)} times")
        text = text.replace(old, new)
    return text


def written(row, folder):
    """Writes the files of a row into a folder; the words that ask about them."""
    source, script, certificate = TOP / row["script"][0], folder / "a.toml", folder / "a.json"
    script.write_text(turned((source / "script.toml").read_text(), row.get("put", [])))
    if "intents" in row:
        (folder / "a.scenarios.toml").write_text("".join(f"{lines}\n" for lines in row["intents"]).replace("\\n", "\n"))
    words = ["check", str(script), *shlex.split(" ".join(row.get("words", [])))]
    if "certificate" in row:
        certificate.write_text(turned((source / "certificate.json").read_text(), row.get("put certificate", [])))
        words += ["--certificate", str(certificate)]
    return words


def kinds_in(folder):
    """What each file of a folder is, by its name."""
    names = {"a.toml": "script", "a.json": "certificate", "a.certificate.json": "certificate", "a.scenarios.toml": "intents"}
    return {str(folder / name): kind for name, kind in names.items()}


def told(lines, kinds):
    """What lines tell of files that are of these kinds; a ValueError where one isn't as compilers write it."""
    for line in lines:
        found = LINE.fullmatch(line)
        if found is None or found["file"] not in kinds:
            raise ValueError(f"no line as compilers write it: {line}")
        yield Told(kinds[found["file"]], int(found["line"]), int(found["column"]), found["severity"], found["text"])


def wanted(values):
    """What values of a row say that is told."""
    for value in values:
        kind, line, column, severity, says = TOLD.fullmatch(value).groups()
        yield Told(kind, int(line), int(column), severity, [part.strip() for part in says.split(" | ") if part.strip()])


def is_as(one, other):
    """Whether what is told is as a row wants it."""
    return one[:4] == other[:4] and all(part in one.says for part in other.says)


def fault_of(row, status, output, folder):
    """What is wrong with the answer to a row; none where all is as it should be."""
    *lines, last = output.splitlines() or [""]
    if (status, last[: len(row["last"][0])]) != (int(row["status"][0]), row["last"][0]):
        return f"status {status}, {last}"
    try:
        found = [*told(lines, kinds_in(folder))]
    except ValueError as fault:
        return str(fault)
    grave, asked = ([one for one in every if one.severity != "note"] for every in (found, [*wanted(row.get("told", []))]))
    if not any(FORGOTTEN.search(part) for one in asked for part in one.says):
        grave = [one for one in grave if not FORGOTTEN.search(one.says)]
    if len(grave) != len(asked) or not all(map(is_as, grave, asked)):
        return f"{grave}"
    notes = iter(one for one in found if one.severity == "note")
    for note in (one for one in wanted(row.get("told", [])) if one.severity == "note"):
        if not any(is_as(one, note) for one in notes):
            return f"no note {note} among {[one for one in found if one.severity == 'note']}"
    return None
