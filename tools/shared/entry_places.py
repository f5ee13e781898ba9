"""Where entries stand in the text of a certificate that is read: an entry is an object in the array that is a member of the outermost object. It is
installed too, so it knows nothing of this repository."""
import re
from collections import namedtuple

# A string, or what begins or ends an array or an object.
TOKEN = re.compile(rb'"(?:[^"\\]|\\.)*"|[\[\]{}]', re.DOTALL)
# An entry as it stands there: the line that it begins on, from 1, and its text.
Listed = namedtuple("Listed", "line text")


def ends(certificate):
    """Where each entry begins and ends. Of two arrays with one key the last counts."""
    depth, first, found = 0, 0, []
    for token in TOKEN.finditer(certificate):
        sign = token.group()
        if sign in (b"[", b"{"):
            depth += 1
            if sign == b"[" and depth == 2:
                found = []
            elif sign == b"{" and depth == 3:
                first = token.start()
        elif sign in (b"]", b"}"):
            depth -= 1
            if sign == b"}" and depth == 2:
                found.append((first, token.end()))
    return found


def listed(certificate, place):
    """The entry at a place, as it stands in the text of a certificate."""
    first, end = ends(certificate)[place]
    return Listed(certificate.count(b"\n", 0, first) + 1, certificate[first:end].decode(errors="replace"))


def lines(certificate):
    """The line that each entry begins on, from 1."""
    found, line, before = [], 1, 0
    for first, _ in ends(certificate):
        line += certificate.count(b"\n", before, first)
        before = first
        found.append(line)
    return found
