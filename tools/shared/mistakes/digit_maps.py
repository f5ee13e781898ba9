"""What is wrong with the text of a digit map: docs/use/FORMATS.md, Digit maps. It is installed too, so it knows nothing of this repository."""
import re

MOST = 16
POSITION = re.compile(rb"[0-9EeFfXx]|\[[^\]]*\]")
# A run within a range: two digits with `-` between them, or one symbol.
RUN = re.compile(rb"[0-9]-[0-9]|[0-9EeFf](?!-.)")


def range_fault(text, start, last):
    """What is wrong with the range whose bracket stands at a byte of an alternative that ends at `last`; none where it is one."""
    end = text.find(b"]", start, last)
    if end < 0:
        return "a range has no `]` at its end"
    if end == start + 1:
        return "a range has nothing in it"
    place = start + 1
    while place < end:
        run = RUN.match(text, place, end)
        if not run:
            return "a range has digits, pairs of digits such as `2-7`, `E` and `F`"
        if len(run[0]) == 3 and run[0][0] > run[0][2]:
            return f"`{run[0].decode()}` falls: its second digit is lower than its first"
        place = run.end()
    return None


def alternative_fault(text, start, end):
    """The byte at which an alternative has its first fault, and what is wrong there; none where it has none. How many positions it has isn't asked."""
    if start == end:
        return start, "an alternative has nothing in it"
    place = start
    while place < end:
        fault = range_fault(text, place, end) if text[place : place + 1] == b"[" else None
        if fault:
            return place, fault
        found = POSITION.match(text, place, end)
        if not found:
            sign = text[place : place + 4].decode(errors="ignore")[:1]
            return place, f"`{sign}` is no position: a digit, `E`, `F`, `x` for any digit, or a range in brackets"
        place = found.end()
    return None


def inner(text):
    """Where the alternatives begin and end: within the parentheses that may stand round the whole."""
    if text[:1] == b"(" and text[-1:] == b")" and len(text) > 1:
        return 1, len(text) - 1
    return 0, len(text)


def alternatives(text):
    """Where each alternative begins and ends."""
    start, last = inner(text)
    for part in text[start:last].split(b"|"):
        yield start, start + len(part)
        start += len(part) + 1


def too_long(text):
    """Where a map without another fault is too long, and what is said of it; none where it isn't."""
    found = list(alternatives(text))
    if len(found) > MOST:
        return found[MOST][0], f"it has {len(found)} alternatives, and {MOST} at most may be there"
    for start, end in found:
        positions = [position.start() for position in POSITION.finditer(text, start, end)]
        if len(positions) > MOST:
            return positions[MOST], f"an alternative has {len(positions)} positions, and {MOST} at most may be there"
    return None


def map_faults(text):
    """What is wrong with the text of a map: the bytes at which its alternatives have their first faults, from 0, each with what is wrong there; nothing where
    the map can be read."""
    found = [fault for start, end in alternatives(text) if (fault := alternative_fault(text, start, end))]
    return found or [fault for fault in [too_long(text)] if fault]
