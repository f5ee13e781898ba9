"""Reading a JSON text with the places of its keys and values, within the limits of the library that `mgcall` has: arrays and objects stand in one another 127
deep, no number is past the largest floating one, no surrogate stands alone. Of a key that stands twice the last one counts. Python's `json` takes more, and
a test compares the two. It is installed too, so it knows nothing of this repository."""
import math
import re

from shared.mistakes import reading
from shared.mistakes.nodes import NULL, NUMBER, TABLE, TRUTH, WHOLE, Node, Unread, unescaped
from shared.mistakes.reading import MARK, escape_fault, shown, unclosed

MOST_DEEP = 127
GAP = re.compile(rb"[ \t\r\n]*+")
INSIDE = re.compile(rb'(?:[^"\\\x00-\x1f]++|\\[^\x00-\x1f])*+')
ESCAPE = re.compile(rb'\\(?:["\\/bfnrt]|u(?![dD][89a-fA-F])[0-9A-Fa-f]{4}|u[dD][89abAB][0-9A-Fa-f]{2}\\u[dD][c-fC-F][0-9A-Fa-f]{2})')
NUMERAL = re.compile(rb"-?(?:0|[1-9][0-9]*+)(?:\.[0-9]++)?(?:[eE][+-]?[0-9]++)?")
# What seems to be a word or a number, whatever it is.
WORD = re.compile(rb"[^\s\[\]{}:,\"]*+")
WORDS = {b"true": (TRUTH, True), b"false": (TRUTH, False), b"null": (NULL, None)}


class Reader(reading.Reader):
    """A JSON text that is read."""

    gaps, quotes, most_deep, nested = GAP, (b'"',), MOST_DEEP, "arrays and objects"

    def quoted(self, at):
        """The text that is quoted at a byte, and where it ends."""
        text, end = self.text, INSIDE.match(self.text, at + 1).end()
        if self.sign(end) != b'"':
            raise unclosed(text, at, end, '"')
        if text.find(b"\\", at + 1, end) < 0:
            return text[at + 1 : end].decode(), end + 1
        fault = escape_fault(ESCAPE, text, at + 1, end)
        if fault is not None:
            raise Unread(fault, f"`{shown(text[fault : fault + 2])}` begins no escape that stands for a character")
        return unescaped(text[at + 1 : end]), end + 1

    def bare(self, at):
        """A number, a truth value or `null`, and where it ends."""
        word = WORD.match(self.text, at)[0]
        if word in WORDS:
            kind, value = WORDS[word]
            return Node(kind, value, at), at + len(word)
        found = NUMERAL.match(self.text, at)
        if not found or found[0] != word:
            raise Unread(at, self.no_value(at, word))
        number = float(word)
        if math.isinf(number):
            raise Unread(at, "a number is past the largest one that there is")
        is_whole = word.removeprefix(b"-").isdigit()
        return Node(WHOLE, int(word), at) if is_whole else Node(NUMBER, number, at), found.end()

    def no_value(self, at, word):
        """What is said of what should be a value and isn't."""
        if word.startswith((b"//", b"/*", b"#")):
            return "JSON has no remarks"
        if word.startswith(b"'"):
            return "a text stands in double quotes"
        if word:
            return f"`{shown(word)}` is no value; a text stands in double quotes"
        sign = self.sign(at)
        return f"a value is missing before `{sign.decode()}`" if sign else "a value is missing: the file ends here"

    def parted(self, place, closing, what, begun):
        """Where the next item is. A comma stands before an item and nowhere else."""
        if self.sign(place) != b",":
            raise Unread(place, f"a comma or `{closing.decode()}` has to stand here, in {what} that begins on line {self.line(begun)}")
        behind = self.gap(place + 1)
        if self.sign(behind) == closing:
            raise Unread(place, f"a comma stands behind the last item of {what}; JSON has none there")
        return behind

    def key(self, at):
        """The key at a byte, and where its value begins."""
        if self.sign(at) != b'"':
            raise Unread(at, "a key stands in double quotes" if WORD.match(self.text, at)[0] else "a key has to stand here")
        key, end = self.quoted(at)
        place = self.gap(end)
        if self.sign(place) != b":":
            raise Unread(place, f"`:` has to stand behind the key `{shown(key.encode())}`")
        return key, self.gap(place + 1)

    def braces(self, at, depth):
        """The object at a byte, and where it ends."""
        members, place = {}, self.gap(at + 1)
        while self.sign(place) != b"}":
            self.goes_on(place, b"}", "an object", at)
            key, first = self.key(place)
            value, end = self.value(first, depth)
            members[key] = (place + 1, value)
            place = self.behind(end, b"}", "an object", at)
        return Node(TABLE, members, at), place + 1


def read(text):
    """The value that a text is; `Unread` where it is no JSON."""
    reader = Reader(reading.decodable(text))
    if text.startswith(MARK):
        raise Unread(0, "a byte order mark stands before it; a certificate has none")
    place = reader.gap(0)
    if place == len(text):
        raise Unread(0, "the file is empty")
    value, end = reader.value(place, MOST_DEEP)
    if reader.gap(end) < len(text):
        raise Unread(reader.gap(end), "something stands behind the end of the value")
    return value
