"""Edits: files that say how a text is turned, of the form that `rt must-fail` reads. A line 'file: PATH' names a file below a folder, and pairs of lines
'old: TEXT' and 'new: TEXT' turn it: each old text stands there once, as the pairs before have left it. Lines that begin with '#' are remarks. All other
lines are a word and what stands behind it, as 'turns: FUNCTION', for the tool that reads the edit."""
import re
from pathlib import Path

PAIRS = ("file", "old", "new")


class Unfit(Exception):
    """An edit that can't be made: what is wrong with it."""


class Edit:
    """An edit: its name, its changes (a file, an old and a new text each) and its other lines by their words."""

    def __init__(self, path):
        self.name, self.text, self.changes, self.words, self.faults = path.stem, path.read_text(), [], [], []
        file, old = None, None
        for line in self.text.splitlines():
            word, rest = parted(line)
            if word == "file":
                file = rest
            elif word == "old":
                old = rest
            elif word == "new":
                self.changes.append((file, old, rest))
                self.faults += [] if file and old else ["a new text stands before a file and an old text"]
                old = None
            elif word:
                self.words.append((word, rest))
            elif line.strip() and not line.startswith("#"):
                self.faults.append(f"a line that is not read: {line.strip()}")
        self.faults += [] if self.changes else ["it turns nothing"]

    def of(self, word):
        """What stands behind a word, in each line that begins with it."""
        return [rest for other, rest in self.words if other == word]

    def made(self, folder):
        """The texts of the files below a folder that the edit turns, by their paths."""
        return made([self], folder)


def parted(line):
    """The word that a line begins with and what stands behind it; no word where it is a remark or nothing of the kind."""
    found = re.fullmatch(r"([a-z]+):(?: (.*))?", line)
    return (found[1], found[2] or "") if found else ("", "")


def made(edits, folder):
    """The texts of the files below a folder that edits turn, one after the other, by their paths. `Unfit` where one doesn't fit."""
    texts = {}
    for edit in edits:
        if edit.faults:
            raise Unfit(edit.faults[0])
        for file, old, new in edit.changes:
            path = Path(folder) / file
            if file not in texts and not path.is_file():
                raise Unfit(f"there is no file {file}")
            text = texts.get(file) or path.read_text()
            if text.count(old) != 1:
                raise Unfit(f"the old text stands {text.count(old)} times in {file}")
            texts[file] = text.replace(old, new)
    return texts


def put(texts, folder):
    """Writes texts below a folder, by their paths."""
    for file, text in texts.items():
        (Path(folder) / file).write_text(text)


def fault(edit, folder):
    """What is wrong with an edit of the files below a folder; None where it can be made."""
    try:
        edit.made(folder)
    except Unfit as unfit:
        return str(unfit)
    return None
