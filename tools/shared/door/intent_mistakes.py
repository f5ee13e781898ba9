"""What is wrong with the intents of a file as they stand, before anything is asked of a service: keys that aren't known, values of the wrong kind, names that
the script doesn't have, each at its place with the nearest word. It is installed too, so it knows nothing of this repository."""
import re

from shared import scripts
from shared.door import places
from shared.door.diagnostics import TOP, error
from shared.door.inputs import OF_SCENARIOS
from shared.door.intents import AWAITS, BOTH_WAYS, DOES_ALL, ENDS, HEARS, IGNORES, KEY, NOBODY_RINGS, ONE_WAY, REACHES, RINGS, SILENT, TONES
from shared.mistakes.near import nearest
from shared.mistakes.nodes import LIST, TABLE, TEXT, TRUTH, Unread
from shared.mistakes.scenario_words import TONES as KNOWN_TONES
from shared.mistakes.words import KINDS, listed, shown

KEYS = (HEARS, SILENT, AWAITS, IGNORES, REACHES, ENDS, DOES_ALL, RINGS, NOBODY_RINGS, TONES)
PAIR = re.compile(rf"(\w+)([{BOTH_WAYS}{ONE_WAY}])(\w+)")
NOTE = re.compile(r"(\w+)\.(\w+)")
# What is said of a value that isn't of the kind that its key asks for.
NOT_PAIRS = "it has to be a list of pairs of lines, as `[\"a-b\"]` or `[\"a>b\"]`"
NOT_NOTES = "it has to be a list of notes, as `[\"a.on\"]`"
NOT_STATES = "it has to be the name of a state, or a list of such"
NOT_LINES = "it has to be a list of lines, as `[\"b\"]`"
NOT_TONES = "it has to be a table of lines, each with a tone or a list of tones, as `{ a = \"rt\" }`"
NOT_TRUE = "it has to be `true`; where nothing is asked the key isn't there"


class Mistakes:
    """The look at the intents of a file beside its script."""

    def __init__(self, script, file):
        self.name, self.text, self.found = file.name, places.Document(file.text), []
        table = scripts.read(script.text)
        self.lines, self.states = tuple(table["lines"]), tuple(state["name"] for state in table["state"])

    def add(self, place, path, says, word="", known=()):
        """A mistake at a place, with the nearest of the words that are known."""
        meant = nearest(word, tuple(known)) if word and known else None
        self.found.append(error(self.name, place, KEY, f"{path}: {says}{f' (did you mean `{meant}`?)' if meant is not None else ''}"))

    def place(self, at):
        """The place of a byte."""
        return self.text.place(at)

    def unknown(self, node, path, what, word, known):
        """A name in a text that the script doesn't have as what its place asks for."""
        self.add(self.text.inside(node), path, f"no {what} {shown(word)} is declared", word, known)

    # ---- texts

    def line(self, node, path, word):
        """A name that has to be that of a line."""
        if word not in self.lines:
            self.unknown(node, path, "line", word, self.lines)

    def pair(self, node, path):
        """A pair of lines."""
        found = PAIR.fullmatch(node.value)
        if found is None:
            self.add(self.text.inside(node), path, f"{shown(node.value)} is no pair of lines: `a-b` is both ways, `a>b` that b hears a")
            return
        self.line(node, path, found[1])
        self.line(node, path, found[3])
        if found[1] == found[3]:
            self.add(self.text.inside(node), path, f"{shown(node.value)} names one line twice")

    def note(self, node, path):
        """A note of a line."""
        found = NOTE.fullmatch(node.value)
        if found is None:
            self.add(self.text.inside(node), path, f"{shown(node.value)} is no note: it is a line, a dot and a kind, as `a.on`")
            return
        self.line(node, path, found[1])
        if found[2] not in KINDS:
            self.add(self.text.inside(node), path, f"{shown(found[2])} is no kind of note; the kinds are {listed(KINDS)}", found[2], KINDS)

    def line_alone(self, node, path):
        """The name of a line as a text."""
        self.line(node, path, node.value)

    def tone(self, node, path):
        """A tone."""
        if node.value not in KNOWN_TONES:
            self.add(self.text.inside(node), path, f"{shown(node.value)} is no tone; the tones are {listed(KNOWN_TONES)}", node.value, tuple(KNOWN_TONES))

    def tones(self, at, node, path):
        """Lines with their tones."""
        if node.kind != TABLE:
            self.add(self.place(at), path, NOT_TONES)
            return
        for name, (place, value) in node.value.items():
            if name not in self.lines:
                self.add(self.place(place), path, f"no line {shown(name)} is declared", name, self.lines)
            if value.kind == TEXT:
                self.tone(value, path)
            else:
                self.texts(place, value, path, NOT_TONES, self.tone)

    def state(self, node, path):
        """The name of a state."""
        if node.value not in self.states:
            self.unknown(node, path, "state", node.value, self.states)

    # ---- values

    def texts(self, at, node, path, says, look):
        """A list of texts, each looked at."""
        if node.kind != LIST:
            self.add(self.place(at), path, says)
            return
        for item in node.value:
            if item.kind == TEXT:
                look(item, path)
            else:
                self.add(self.place(item.at), path, says)

    def value(self, key, at, node, path):
        """The value of a key."""
        if key == HEARS:
            self.texts(at, node, path, NOT_PAIRS, self.pair)
        elif key in (AWAITS, IGNORES):
            self.texts(at, node, path, NOT_NOTES, self.note)
        elif key == RINGS:
            self.texts(at, node, path, NOT_LINES, self.line_alone)
        elif key == TONES:
            self.tones(at, node, path)
        elif key == REACHES and node.kind == TEXT:
            self.state(node, path)
        elif key == REACHES:
            self.texts(at, node, path, NOT_STATES, self.state)
        elif node.kind != TRUTH or node.value is not True:
            self.add(self.place(at), path, NOT_TRUE)

    # ---- tables

    def intent(self, name, at, node):
        """The intent of a state."""
        path = f"`{KEY}.{name}`"
        if name not in self.states:
            self.add(self.place(at), path, f"no state {shown(name)} is declared", name, self.states)
        if node.kind != TABLE:
            self.add(self.place(at), path, f"it has to be a table, begun by `[{KEY}.{name}]`")
            return
        for key, (place, value) in node.value.items():
            if key in KEYS:
                self.value(key, place, value, f"{path}: `{key}`")
            else:
                self.add(self.place(place), path, f"the key {shown(key)} isn't known; the keys are {listed(KEYS)}", key, KEYS)
        for key, other in ((SILENT, HEARS), (NOBODY_RINGS, RINGS)):
            if {key, other} <= {*node.value}:
                self.add(self.place(node.place(key)), path, f"`{key}` says what `{other} = []` says, and `{other}` stands there too")

    def whole(self):
        """Looks at all intents; the mistakes in the order of the file."""
        root = self.text.root
        for key in root.value:
            if key != KEY and nearest(key, tuple(sorted(OF_SCENARIOS))) == KEY:
                self.add(self.place(root.place(key)), "the top of the file", f"the key {shown(key)} isn't known", key, (KEY,))
        if KEY in root.value:
            at, node = root.value[KEY]
            if node.kind == TABLE:
                for name, (place, intent) in node.value.items():
                    self.intent(name, place, intent)
            else:
                self.add(self.place(at), f"`{KEY}`", f"it has to be tables, each begun by `[{KEY}.STATE]`")
        return sorted(self.found, key=lambda one: one.place)


def mistakes(script, file):
    """What is wrong with the intents of a file, by a script without mistakes: errors. A text that is no TOML has one."""
    try:
        return Mistakes(script, file).whole()
    except Unread as fault:
        place = places.Text(file.text).place(fault.at) if file.text else TOP
        return [error(file.name, place, KEY, fault.says)]
