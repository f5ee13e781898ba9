"""What reading a JSON text and reading one of TOML have in common: values, arrays, the ends of what is in brackets and quotes, and how a text begins. It is
installed too, so it knows nothing of this repository."""
from shared.mistakes.nodes import LIST, TEXT, Node, Unread

MARK = b"\xef\xbb\xbf"


def shown(text):
    """Some bytes as a sentence shows them."""
    return text[:40].decode(errors="replace") + (".." if len(text) > 40 else "")


def decodable(text):
    """A text, where it is one of UTF-8."""
    try:
        text.decode()
    except UnicodeDecodeError as error:
        raise Unread(error.start, "a byte that isn't of UTF-8") from None
    return text


def escape_fault(escape, text, start, end):
    """Where a text with escapes has one that this pattern isn't of; none where it is of each."""
    at = text.find(b"\\", start, end)
    while at >= 0:
        found = escape.match(text, at, end)
        if not found:
            return at
        at = text.find(b"\\", found.end(), end)
    return None


def unclosed(text, at, end, quotes):
    """Why a quoted text that begins at a byte has no end: what stands at its first byte that it can't have."""
    byte = text[end : end + 1]
    if byte == text[at : at + 1]:
        return Unread(end, "more quotes stand side by side than a text has at its end")
    if not byte or byte in b"\r\n":
        return Unread(at, f"a text has no {quotes} at its end: {'its line' if byte else 'the file'} ends before")
    return Unread(end, f"a text can't have the control character {byte[0]:#04x}; an escape stands for it")


class Reader:
    """A text that is read. A format has its own class below this one: what stands between signs (`gaps`), the quotes of a text, how deep what has others in it
    may stand in one another and what that is called, and the methods `braces`, `quoted`, `bare` and `parted`."""

    gaps, quotes, most_deep, nested = None, (), 0, ""

    def __init__(self, text):
        self.text = text

    def gap(self, at):
        """Where the next sign is, on whichever line."""
        return self.gaps.match(self.text, at).end()

    def sign(self, at):
        """The byte at a place, as bytes; none at the end."""
        return self.text[at : at + 1]

    def line(self, at):
        """The line of a byte, from 1."""
        return self.text.count(b"\n", 0, at) + 1

    def value(self, at, depth):
        """The value at a byte, and where it ends. What has others in it may stand so deep."""
        sign = self.sign(at)
        if sign in (b"[", b"{"):
            if depth == 0:
                raise Unread(at, f"{self.nested} stand more than {self.most_deep} deep in one another")
            return self.array(at, depth - 1) if sign == b"[" else self.braces(at, depth - 1)
        if sign in self.quotes:
            found, end = self.quoted(at)
            return Node(TEXT, found, at), end
        return self.bare(at)

    def array(self, at, depth):
        """The array at a byte, and where it ends."""
        items, place = [], self.gap(at + 1)
        while self.sign(place) != b"]":
            self.goes_on(place, b"]", "an array", at)
            item, end = self.value(place, depth)
            items.append(item)
            place = self.behind(end, b"]", "an array", at)
        return Node(LIST, items, at), place + 1

    def goes_on(self, place, closing, what, begun):
        """Refuses what begins at a byte and has no closing bracket, where the text is at its end."""
        if place >= len(self.text):
            raise Unread(begun, f"{what} has no `{closing.decode()}` at its end")

    def behind(self, at, closing, what, begun):
        """Where the next item or the closing bracket is, of what begins at a byte."""
        place = self.gap(at)
        if self.sign(place) == closing:
            return place
        self.goes_on(place, closing, what, begun)
        return self.parted(place, closing, what, begun)
