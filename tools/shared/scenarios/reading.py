"""A file of scenarios that has no mistakes, as values: docs/use/SCENARIOS.md. It is installed too, so it knows nothing of this repository."""
from collections import namedtuple

from shared.mistakes import toml_text
from shared.mistakes.nodes import LIST
from shared.mistakes.scenario_words import PAIR, TONES

STATE, PHASE, HEARS, TONES_KEY = KEYS = ("state", "phase", "hears", "tones")
ALWAYS, AT_END = "always", "at_end"
# A word of a scenario that is done: its parts, and the place of the step that it is of.
Act = namedtuple("Act", "parts step")
# What is expected: by its key the value, and by its key the byte at which it stands.
Expected = namedtuple("Expected", "values places")
# A step: what is expected after it, its words as they are written, and the byte at which it stands.
Step = namedtuple("Step", "expected words at")
# A scenario: its name, the byte at which it begins, its steps, all that is done in it, and the report's line at its end, which is None where none is expected,
# with the byte of that; what has to hold in it, and by which keys it says so itself.
Scenario = namedtuple("Scenario", "name at steps acts report report_at rules own")
# What has to hold at each step, by its keys pairs of who hears whom with the byte at which these stand; and what at the end of a variant, None where nothing
# has to.
Rules = namedtuple("Rules", "always at_end")


def pair(text):
    """Who is heard by whom in a pair, as (from, to)."""
    first, sign, second = PAIR.fullmatch(text).groups()
    return {(first, second)} if sign == ">" else {(first, second), (second, first)}


def pairs(texts):
    """The same of a list of pairs."""
    return frozenset(one for text in texts for one in pair(text))


def listed(value):
    """A text, or a list of texts, as a list."""
    return [value] if isinstance(value, str) else value


def expected(node):
    """What a table says that is expected."""
    values, places = {}, {key: node.place(key) for key in KEYS if key in node.value}
    for key in places:
        value = node.member(key).plain()
        if key == STATE:
            values[key] = listed(value)
        elif key == HEARS:
            values[key] = pairs(value)
        elif key == TONES_KEY:
            values[key] = {line: sorted(TONES[tone] for tone in listed(tones)) for line, tones in value.items() if tones}
        else:
            values[key] = value
    return Expected(values, places)


def acts(words, step):
    """What is done by the words of a step: of what is dialled each symbol by itself."""
    for word in words:
        parts = word.split(" ")
        if parts[0] == "digits":
            yield from (Act((*parts[:2], symbol), step) for symbol in parts[2])
        else:
            yield Act((*parts,), step)


def rules(node, of_file):
    """What has to hold by a table: what it doesn't say itself is as in the file."""
    always, at_end = node.member(ALWAYS), node.member(AT_END)
    of_always = of_file.always if always is None else {key: (pairs(value.plain()), at) for key, (at, value) in always.value.items()}
    return Rules(of_always, of_file.at_end if at_end is None else expected(at_end))


def scenario(node, of_file):
    """A scenario of a file with rules."""
    steps = [Step(expected(item), listed(item.member("do").plain()), item.at) for item in node.member("steps").value]
    done = [act for place, step in enumerate(steps) for act in acts(step.words, place)]
    report = node.member("report")
    of_report = (report.value, node.place("report")) if report else (None, None)
    own = [key for key in (ALWAYS, AT_END) if key in node.value]
    return Scenario(node.member("name").value, node.at, steps, done, *of_report, rules(node, of_file), own)


def read(text):
    """The scenarios of a text, and what it says under `intents`."""
    root = toml_text.read(text)
    found, intents = root.member("scenario"), root.member("intents")
    tables = found.value if found is not None and found.kind == LIST else []
    of_file = rules(root, Rules({}, None))
    return [scenario(node, of_file) for node in tables], intents.plain() if intents else {}


def written(act):
    """A word that is done, as it is written."""
    return " ".join(act.parts)
