"""What is found wrong in documents: the faults of the formats with their numbers, a mistake as a record, and lines and columns. It is installed too, so it
knows nothing of this repository."""
import bisect
import re
from collections import namedtuple

from shared.mistakes.near import nearest
from shared.mistakes.nodes import within

# The faults of each document in the order of their numbers, which begin with 1.
FAULTS = {
    "input": ("Sections", "TooLong"),
    "script": (
        "NotToml", "BadKey", "BadName", "Duplicate", "Unknown", "BadMap", "NoStart", "NoRestart", "NoFault", "OkWithoutActions", "EndWithTransitions",
        "MadeAndSubtracted", "TooMany",
    ),
    "certificate": ("NotJson", "BadKey", "Unknown", "EmptySet", "TooManyEntries", "TooManyPoints", "OldVersion"),
    "plan": ("NotToml", "BadStep", "TooMany"),
    "scenarios": ("NotToml", "BadKey", "BadWord", "Unknown", "Duplicate", "TooMany"),
}
# For how many mistakes of a document a word is sought that may have been meant: it takes long beside the rest.
MOST_MEANT = 1000
LINE = re.compile(rb"\n")
DIVIDER = re.compile(rb"^%%\r?$", re.MULTILINE)

# A mistake: in which document it stands, its line and the byte of that, from 1, of what it is a fault, with its number and name, the path of the value in the
# words of the format, the word that is wrong, what is wrong, and the word that may have been meant. The path of a whole text is empty, and so is the word where
# something is missing.
Mistake = namedtuple("Mistake", "document at_line at_column of fault_number fault_name path word says meant")


def valid(name: str) -> str:
    """A name without the surrogates that stand for bytes which aren't UTF-8."""
    return name.encode(errors="surrogateescape").decode(errors="replace")


class Findings:
    """What is found in one document, in whatever order."""

    def __init__(self, document, text):
        self.document, self.text, self.found = document, text, []

    def add(self, fault, at, path, says, word="", known=()):
        """A mistake at a byte; the word that is nearest among those that are known may have been meant."""
        of = "input" if fault in FAULTS["input"] else self.document
        meant = nearest(word, tuple(known)) if known and word and len(self.found) < MOST_MEANT else None
        self.found.append((at, Mistake(self.document, 0, 0, of, FAULTS[of].index(fault) + 1, fault, path, word, says, meant)))

    def inside(self, node, before):
        """The byte of the document at which a byte of a text's value stands."""
        return within(self.text, node.at, before)

    def inside_key(self, at, before):
        """The same of a key in quotes whose text begins at a byte."""
        return within(self.text, at - 1, before)

    def divided(self):
        """Adds each line that would divide the input."""
        for found in DIVIDER.finditer(self.text):
            self.add("Sections", found.start(), "", "a line `%%` divides an input, wherever it stands", "%%")

    def mistakes(self):
        """All in the order of the text, with their lines and columns."""
        begins = [0, *(line.end() for line in LINE.finditer(self.text))] if self.found else []
        for at, mistake in sorted(self.found, key=lambda one: one[0]):
            line = bisect.bisect_right(begins, at)
            yield mistake._replace(at_line=line, at_column=at - begins[line - 1] + 1)


def printable(text):
    """A text in one line, with escapes in the place of signs that move a terminal or end a line."""
    return "".join(sign if sign.isprintable() else sign.encode("unicode_escape").decode() for sign in text)


def sentence(mistake):
    """What is wrong, in a sentence or two."""
    path = f"{mistake.path}: " if mistake.path else ""
    return printable(f"{path}{mistake.says}." + (f" Did you mean `{mistake.meant}`?" if mistake.meant is not None else ""))
