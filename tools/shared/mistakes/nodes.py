"""A document as its values, each with the byte at which it begins, and why a text is no such document. What reads TOML and what reads JSON make the same
values of them, so that the rules of the formats know of neither. It is installed too, so it knows nothing of this repository."""
import bisect
import functools
import re

# What a value is, and what that is called.
TEXT, LIST, TABLE, TRUTH, WHOLE, NUMBER, DATE, NULL = "text", "list", "table", "truth value", "whole number", "number", "date", "null"
# What stands for itself in a text between quotes, and what stands for something else: JSON's escapes are among TOML's.
PIECE = re.compile(rb"[^\\]+|\\[ \t]*\r?\n[ \t\r\n]*|\\x[0-9A-Fa-f]{2}|\\U[0-9A-Fa-f]{8}|\\u[dD][89abAB]..\\u....|\\u[0-9A-Fa-f]{4}|\\.", re.DOTALL)
# What the short escapes stand for; the other ones stand for the number that they write.
SHORT = {"b": "\b", "e": "\x1b", "f": "\f", "n": "\n", "r": "\r", "t": "\t", '"': '"', "\\": "\\", "/": "/"}


class Unread(Exception):
    """A text that isn't of its format: the byte at which that is seen, and why."""

    def __init__(self, at, says):
        super().__init__(says)
        self.at, self.says = at, says


class Node:
    """A value: its kind, what it is, and the byte at which it begins. A list has nodes, and a table has for each key the byte at which the key begins, behind
    its quote where it has one, and a node. `origin` is what made a table of TOML while it is read."""

    __slots__ = ("kind", "value", "at", "origin")

    def __init__(self, kind, value, at, origin=None):
        self.kind, self.value, self.at, self.origin = kind, value, at, origin

    def member(self, key):
        """The value at a key of a table; none where it isn't there."""
        found = self.value.get(key)
        return None if found is None else found[1]

    def place(self, key):
        """The byte at which a key of a table begins."""
        return self.value[key][0]

    def plain(self):
        """The value without places, as a library would have it."""
        if self.kind == LIST:
            return [item.plain() for item in self.value]
        if self.kind == TABLE:
            return {key: node.plain() for key, (_, node) in self.value.items()}
        return self.value


def stands_for(piece):
    """The text that an escape stands for."""
    word = piece[1:].decode()
    if word[0] in SHORT:
        return SHORT[word[0]]
    if word[0] in " \t\r\n":
        return ""
    high, low = int(word[1:9] if word[0] == "U" else word[1:5] if word[0] == "u" else word[1:3], 16), word[7:]
    return chr(high) if not low or word[0] != "u" else chr(0x10000 + ((high - 0xD800) << 10) + (int(low, 16) - 0xDC00))


def unescaped(written):
    """The text that stands between two quotes of the kind that has escapes, all of which are such as can be."""
    pieces = [stands_for(piece) if piece[:1] == b"\\" else piece.decode() for piece in PIECE.findall(written)]
    return "".join(pieces)


def content(text, at):
    """Where the text that is quoted at a byte begins, and how many quotes stand there. Three quotes may have the end of a line behind them, which is no part
    of it."""
    quote = text[at : at + 1]
    if text[at : at + 3] != quote * 3:
        return at + 1, 1
    line = re.compile(rb"\r?\n").match(text, at + 3)
    return (line.end() if line else at + 3), 3


@functools.lru_cache(maxsize=1)
def written_places(text, at):
    """For a quoted text that begins at a byte: of each of its pieces how many bytes of its value stand before it, and where it begins."""
    start, size = content(text, at)
    quote, befores, places, before = text[at : at + 1] * size, [], [], 0
    end = None if text[at : at + 1] == b"'" else closing(text, start, quote)
    if end is None:
        return [0], [start]
    for piece in PIECE.finditer(text, start, end):
        befores.append(before)
        places.append(piece.start())
        before += len(stands_for(piece[0]).encode() if piece[0][:1] == b"\\" else piece[0])
    return befores or [0], places or [start]


def closing(text, start, quote):
    """Where a quoted text ends whose first byte behind its quotes is this one."""
    for found in re.compile(rb"\\.|" + quote, re.DOTALL).finditer(text, start):
        if found[0] == quote:
            return found.start()
    return len(text)


def within(text, at, before):
    """The byte of a document at which a byte of the value of a text stands that is quoted at `at`."""
    befores, places = written_places(text, at)
    piece = max(0, bisect.bisect_right(befores, before) - 1)
    is_escape = text[places[piece] : places[piece] + 1] == b"\\" and text[at : at + 1] == b'"'
    return places[piece] + (0 if is_escape else before - befores[piece])
