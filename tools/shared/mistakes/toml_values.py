"""Reading the keys and values of TOML with their places. The language is TOML 1.1 within the limits of the library that `mgcall` has: a key has at most 80
parts, arrays and tables stand in one another 80 deep, whole numbers have 64 bits. Python's `tomllib` knows TOML 1.0 alone, and tells places for few faults;
a test compares the two. It is installed too, so it knows nothing of this repository."""
import calendar
import math
import re

from shared.mistakes.nodes import DATE, NUMBER, TRUTH, WHOLE, Node, Unread, content, unescaped
from shared.mistakes.reading import escape_fault, shown, unclosed

MOST_DEEP = 80
BLANK = re.compile(rb"[ \t]*+")
# White space, ends of lines and remarks.
GAP = re.compile(rb"(?:[ \t\n]++|\r\n|#[^\x00-\x08\x0a-\x1f\x7f]*+)*+")
BARE = re.compile(rb"[A-Za-z0-9_-]++")
WORD = re.compile(rb"[A-Za-z0-9_+.:-]++(?: [0-9][A-Za-z0-9_+.:-]*+)?+")
# What stands between quotes, up to where it ends or breaks the rules.
INSIDE = {
    (b'"', 1): re.compile(rb'(?:[^"\\\x00-\x08\x0a-\x1f\x7f]++|\\[^\x00-\x08\x0a-\x1f\x7f])*+'),
    (b"'", 1): re.compile(rb"[^'\x00-\x08\x0a-\x1f\x7f]*+"),
    (b'"', 3): re.compile(rb'(?:[^"\\\x00-\x08\x0b-\x1f\x7f]++|\r\n|\\(?:[^\x00-\x08\x0b-\x1f\x7f]|\r\n)|""?(?!"))*+'),
    (b"'", 3): re.compile(rb"(?:[^'\x00-\x08\x0b-\x1f\x7f]++|\r\n|''?(?!'))*+"),
}
WIDE = rb"U(?!0000[dD][89a-fA-F])00(?:0[0-9A-Fa-f]|10)[0-9A-Fa-f]{4}"
ESCAPE = re.compile(rb'\\(?:[befnrt"\\]|x[0-9A-Fa-f]{2}|u(?![dD][89a-fA-F])[0-9A-Fa-f]{4}|' + WIDE + rb"|[ \t]*\r?\n)")
QUOTES = re.compile(rb"\"+|'+")
# The words that are a value without quotes.
TRUTHS = {b"true": True, b"false": False}
DECIMAL = re.compile(rb"[+-]?(?:0|[1-9](?:_?[0-9])*+)")
BASED = re.compile(rb"0x[0-9A-Fa-f](?:_?[0-9A-Fa-f])*+|0o[0-7](?:_?[0-7])*+|0b[01](?:_?[01])*+")
FLOAT = re.compile(rb"[+-]?(?:0|[1-9](?:_?[0-9])*+)(?:\.[0-9](?:_?[0-9])*+)?(?:[eE][+-]?[0-9](?:_?[0-9])*+)?|[+-]?(?:inf|nan)")
DAY, HOUR = rb"([0-9]{4})-([0-9]{2})-([0-9]{2})", rb"([0-9]{2}):([0-9]{2})(?::([0-9]{2})(?:\.[0-9]+)?)?"
MOMENT = re.compile(DAY + rb"(?:[Tt ]" + HOUR + rb"(?:[Zz]|[+-](?:[01][0-9]|2[0-3]):[0-5][0-9])?)?|" + HOUR)
# What begins as a date or a time does.
LIKE_A_DATE = re.compile(rb"[0-9]++[-:]")
LONG = 400


def taken(text, at, start, end):
    """The text that stands between the quotes of which the first begins at a byte."""
    if text[at : at + 1] == b"'" or text.find(b"\\", start, end) < 0:
        return text[start:end].decode()
    fault = escape_fault(ESCAPE, text, start, end)
    if fault is not None:
        escape = shown(text[fault : fault + 2])
        raise Unread(fault, f"`{escape}` is no escape: a backslash that stands for itself is written twice, or between single quotes")
    return unescaped(text[start:end])


def short_text(text, at):
    """The text between two quotes of which the first stands at a byte, and where it ends."""
    quote = text[at : at + 1]
    end = INSIDE[quote, 1].match(text, at + 1).end()
    if text[end : end + 1] != quote:
        raise unclosed(text, at, end, quote.decode())
    return taken(text, at, at + 1, end), end + 1


def long_text(text, at):
    """The same of three quotes. Of four or five at the end the first are of the text."""
    quote, (start, _) = text[at : at + 1], content(text, at)
    end = INSIDE[quote, 3].match(text, start).end()
    count = len(QUOTES.match(text, end)[0]) if text[end : end + 1] == quote else 0
    if not 3 <= count <= 5:
        raise unclosed(text, at, end, quote.decode() * 3)
    return taken(text, at, start, end + count - 3), end + count


def quoted(text, at):
    """The text that is quoted at a byte, and where it ends."""
    return long_text(text, at) if text[at : at + 3] in (b'"""', b"'''") else short_text(text, at)


def key_part(text, at):
    """A part of a key: it, the byte at which it begins, and where it ends."""
    if text[at : at + 1] in (b'"', b"'") and text[at : at + 1]:
        part, end = short_text(text, at)
        return part, at + 1, end
    bare = BARE.match(text, at)
    if not bare:
        raise Unread(at, "a key has to stand here: letters, digits, `-` and `_`, or any text in quotes")
    return bare[0].decode(), at, bare.end()


def key(text, at):
    """A key with dots: its parts, each with the byte at which it begins, and where the next sign behind it is."""
    parts, place = [], at
    while len(parts) < MOST_DEEP:
        part, first, end = key_part(text, place)
        parts.append((part, first))
        end = BLANK.match(text, end).end()
        if text[end : end + 1] != b".":
            return parts, end
        place = BLANK.match(text, end + 1).end()
    raise Unread(at, f"a key has more than {MOST_DEEP} parts")


def date(word):
    """Whether a word is a date, a time or both."""
    found = MOMENT.fullmatch(word)
    if not found:
        return False
    year, month, day, hour, minute, second, *alone = (int(part) if part else 0 for part in found.groups())
    if found[7]:
        hour, minute, second = alone
    is_day = found[7] or 1 <= month <= 12 and 1 <= day <= (29 if month == 2 and calendar.isleap(year) else calendar.mdays[month])
    return bool(is_day) and hour < 24 and minute < 60 and second <= 60


def whole(word, at):
    """The whole number that a word is; none where it isn't one."""
    if not DECIMAL.fullmatch(word) and not BASED.fullmatch(word):
        return None
    if len(word) > LONG and len(word.lstrip(b"+-0xob_")) > LONG:
        raise Unread(at, "a whole number has 64 bits at most")
    number = int(word.replace(b"_", b""), 0 if BASED.fullmatch(word) else 10)
    if not -(2**63) <= number < 2**63:
        raise Unread(at, "a whole number has 64 bits at most")
    return number


def bare_value(text, at):
    """A value without quotes or brackets, and where it ends."""
    found = WORD.match(text, at)
    word = found[0] if found else b""
    if word in TRUTHS:
        return Node(TRUTH, TRUTHS[word], at), found.end()
    if LIKE_A_DATE.match(word):
        if not date(word):
            raise Unread(at, f"`{shown(word)}` is no date or time that there is")
        return Node(DATE, word.decode(), at), found.end()
    number = whole(word, at) if word else None
    if number is not None:
        return Node(WHOLE, number, at), found.end()
    if FLOAT.fullmatch(word):
        number = float(word.replace(b"_", b""))
        if math.isinf(number) and b"inf" not in word:
            raise Unread(at, "a number is past the largest one that there is")
        return Node(NUMBER, number, at), found.end()
    raise Unread(at, no_value(text, at, word))


def no_value(text, at, word):
    """What is said of what should be a value and isn't."""
    if word:
        return f"`{shown(word)}` is no value; a text stands in quotes"
    byte = text[at : at + 1]
    if not byte or byte in b"\r\n#":
        return "a value is missing behind `=`"
    return f"`{shown(byte)}` begins no value; a text stands in quotes"
