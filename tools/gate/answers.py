"""The grammar of the program's answers, written from docs/use/FORMATS.md: which lines there are, which status goes with each, what a report
looks like, and what a section of an input says of them. The tools that try inputs nobody has an answer for judge by it."""
import json
import re
import tomllib

LIMIT = 16_777_216
STATES, ENTRIES, POINTS = 64, 256, 65_536
NUMBER = "(0|[1-9][0-9]*)"
NAME = "(?!(?:none|armed|gone|absent)(?![a-z0-9_]))[a-z][a-z0-9_]{0,15}"
FAULTS = {
    "input": ("Sections", "TooLong"),
    "script": (
        "NotToml", "BadKey", "BadName", "Duplicate", "Unknown", "BadMap", "NoStart", "NoRestart", "NoFault", "OkWithoutActions",
        "EndWithTransitions", "MadeAndSubtracted", "TooMany",
    ),
    "certificate": ("NotJson", "BadKey", "Unknown", "EmptySet", "TooManyEntries", "TooManyPoints", "OldVersion"),
    "plan": ("NotToml", "BadStep", "TooMany"),
}
RUN_FAULTS = ("BadWorkers", "TooManyCalls", "Disagree")
STEP = f"(?:execute|reply|timer|refuse (?:[0-9]|1[0-5])|{NAME}\\.(?:on|of|fl|full|part))"
YES = re.compile(f"yes {NUMBER} {NUMBER} {NUMBER}")
# The obligations on the opening and on restarts name no entry; a result that is in no entry is named by its step.
NO = re.compile(f"no (?:K[16] entry=- point=- step=-|(?:K2 entry={NUMBER} point={NUMBER} step={STEP}|K[3457] entry={NUMBER} point={NUMBER} step=-))")
LINES = [(YES, 0), (NO, 1)]
LINES += [(re.compile(f"{what} fault {place + 1} {name}"), 3) for what, names in FAULTS.items() for place, name in enumerate(names)]
LINES += [(re.compile(f"run fault {place + 1} {name}"), 5) for place, name in enumerate(RUN_FAULTS)]
LINES += [(re.compile("no memory"), 4), (re.compile(r"usage: mgcall check \[--pieces N\] \| run \[--workers N\]"), 2)]
CALL = re.compile(f"call {NUMBER}(?:\\.([1-9][0-9]*))? {NAME} (lost|resting|waiting|ended|retired) events={NUMBER} idle={NUMBER}")


def status_of(line):
    """The status that goes with a line that isn't of a report, or None where it is no such line."""
    return next((status for shape, status in LINES if shape.fullmatch(line)), None)


def only_line(output):
    """The line that an output is, without its end; None where it is another number of lines, or has other bytes than ASCII's."""
    if output.count(b"\n") != 1 or not output.endswith(b"\n") or not output.isascii():
        return None
    return output[:-1].decode()


def dividers(text):
    """Where the lines that divide a text begin and end, each with its line end."""
    found, start = [], 0
    while start < len(text):
        feed = text.find(b"\n", start)
        end = len(text) if feed < 0 else feed + 1
        if text[start:end] in (b"%%", b"%%\r", b"%%\n", b"%%\r\n"):
            found.append((start, end))
        start = end
    return found


def sections(text):
    """The sections of an input."""
    parts, start = [], 0
    for begin, end in dividers(text):
        parts.append(text[start:begin])
        start = end
    return [*parts, text[start:]]


def toml_tree(text):
    """What Python's own reader makes of a TOML text, or None where it refuses it."""
    try:
        return tomllib.loads(text.removeprefix(b"\xef\xbb\xbf").decode())
    except (ValueError, RecursionError):
        return None


def json_tree(text):
    """What Python's own reader makes of a JSON text, or None where it refuses it."""
    try:
        return json.loads(text.decode())
    except (ValueError, RecursionError):
        return None


def verdict_faults(line, text):
    """What is wrong with a line for the script and the certificate of this text, as far as the numbers in them go."""
    script, certificate = (toml_tree(text[0]), json_tree(text[1])) if len(text) > 1 else (None, None)
    if match := YES.fullmatch(line):
        states, entries, points = map(int, match.groups())
        if not (1 <= states <= STATES and entries <= states * ENTRIES and points <= entries * POINTS):
            yield "past the limits"
        if script is None or len(script["state"]) != states:
            yield "another number of states"
        if certificate is None or len(certificate["entries"]) != entries:
            yield "another number of entries"
    elif match := NO.fullmatch(line):
        entry, point = [int(number) for number in match.groups() if number is not None] or (None, 0)
        if point >= POINTS or entry is not None and (certificate is None or entry >= len(certificate["entries"])):
            yield "an entry or a point that isn't there"


def calls_of(output):
    """The lines of a report as (call, which of those on its lines, phase, events and idle steps), or None where they aren't a report."""
    if not output.isascii() or output and not output.endswith(b"\n"):
        return None
    matches = [CALL.fullmatch(line) for line in output.decode().split("\n")[:-1]]
    if None in matches:
        return None
    return [(int(call), int(later or 0), phase, int(events) + int(idle)) for call, later, phase, events, idle in (m.groups() for m in matches)]


def steps_of(plan):
    """The steps of each call of a plan, over its epochs, as Python reads them; None where it isn't of a plan's shape."""
    tree = toml_tree(plan)
    try:
        return None if tree is None else [[str(step) for epoch in call["epochs"] for step in epoch] for call in tree.get("call", [])]
    except (TypeError, KeyError):
        return None


def report_faults(output, steps):
    """What is wrong with an output as the report of calls with these steps: its shape, the order of its calls, which of them are retired, and how many
    steps each has."""
    told = calls_of(output)
    if told is None or steps is None:
        yield "no report" if told is None else "a report of a plan that Python doesn't read"
        return
    places = [(call, later) for call, later, _, _ in told]
    if places != sorted(set(places)) or {call for call, _ in places} != set(range(len(steps))):
        yield "other calls than the plan's"
        return
    if any(later > 0 and (call, later - 1) not in places for call, later in places):
        yield "a number left out"
    if any((phase == "retired") != ((call, later + 1) in places) for call, later, phase, _ in told):
        yield "a retired call that isn't the earlier one, or an earlier one that isn't retired"
    for place, of_call in enumerate(steps):
        if sum(count for call, _, _, count in told if call == place) != sum(step != "restart" for step in of_call):
            yield f"call {place} has another number of steps"
