"""Rows of documents: the files of tests/documents have scripts, certificates and plans, a row each, with what `mgcall` answers. Their README.md says how rows
are written."""
from collections import namedtuple

from shared import programs

FOLDER = programs.TOP / "tests" / "documents"
MARK = " => "
# A certificate without entries, which is read for any script, and then a no: the opening is in no entry.
NOTHING = '{"version":2,"entries":[]}\n'
READ = 1, "no K1 entry=- point=- step=-"
# What an answer that isn't a fault begins with, and its status; each other one is a report.
STATUSES = {"yes": 0, "no": 1}
# A row that is asked: where it stands, the row, the document that it is of, the words and the input of the program, and what the file says of it.
Row = namedtuple("Row", "place row kind words given said")


def lines(text):
    """The lines that a row writes, where `; ` stands for the end of a line."""
    return "".join(f"{line}\n" for line in text.split("; "))


def many(text):
    """So many times the same lines, with 0, 1 and so on in the place of `#`."""
    count, _, text = text.partition(" ")
    return "".join(lines(text).replace("#", str(number)) for number in range(int(count)))


def call(numbers, epochs):
    """A call of a plan."""
    return f"[[call]]\nlines = {numbers}\nepochs = [{epochs}]\n"


def epochs(text):
    """A call of so many epochs of so many steps each, as `2 of 501`, and another one with the epoch that stands behind `and`."""
    sizes, _, other = text.partition(" and ")
    count, steps = map(int, sizes.split(" of "))
    epoch = "[" + ", ".join(["'pass'"] * steps) + "]"
    return call("[1, 2]", ", ".join([epoch] * count)) + call("[3, 4]", other)


class File:
    """A file of rows, with the documents that stand in it up to a row."""

    def __init__(self, path):
        self.path, self.above, self.head, self.script, self.certificate = path, "", "", "", NOTHING

    def taken(self):
        """The document in the lines above a row, which is of no other row then."""
        above, self.above = self.above, ""
        return above

    def document(self, verb, text):
        """What a row asks, and the words and the sections of the input: the document that it writes, or the one above it, with those that it goes with."""
        if verb in ("script", "many"):
            self.script = self.head + (many(text) if verb == "many" else lines(text) if text else self.taken())
            return "script", ["check"], [self.script, NOTHING]
        if verb in ("certificate", "entry"):
            self.certificate = f'{{"version":2,"entries":[{text}]}}\n' if verb == "entry" else self.taken()
            return "certificate", ["check"], [self.script, self.certificate]
        written = {"plan": lines, "step": lambda step: call("[1, 2]", f"[{step}]"), "epochs": epochs}[verb]
        return "plan", ["run"], [self.script, self.certificate, written(text) if text else self.taken()]

    def rows(self):
        """The rows that ask something."""
        for number, line in enumerate(self.path.read_text().splitlines(), 1):
            if line.startswith("| "):
                self.above += line.removeprefix("| ") + "\n"
            elif line == "head":
                self.head = self.taken()
            elif line and not line.startswith("#"):
                row, _, said = line.partition(MARK)
                verb, _, text = row.partition(" ")
                kind, words, sections = self.document(verb, text)
                yield Row(f"{self.path.name}:{number}", row, kind, words, "%%\n".join(sections).encode(), said)


def rows(path):
    """The rows of a file."""
    return File(path).rows()


def wanted(row):
    """The status of the program and what it writes, without the last line feed: of a document that is read, of one with a fault, of a verdict, of a report."""
    first = row.said.partition(" ")[0]
    if row.said == "read":
        return READ
    if first.isdecimal():
        return 3, f"{row.kind} fault {row.said}"
    if first in STATUSES:
        return STATUSES[first], row.said
    return 0, "" if row.said == "nothing" else row.said.replace("; ", "\n")


def answered():
    """Name, words, input, status and lines of each row of tests/documents."""
    for path in sorted(FOLDER.glob("*.rows")):
        for row in rows(path):
            yield f"{row.place}: {row.row}", row.words, row.given, *wanted(row)
