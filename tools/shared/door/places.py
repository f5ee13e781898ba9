"""Where the parts of a script and the entries of a certificate stand in their texts. It is installed too, so it knows nothing of this repository."""
import bisect
import re

from shared import entry_places
from shared.door.diagnostics import TOP, Place
from shared.mistakes import toml_text
from shared.mistakes.nodes import LIST, TABLE, TEXT, within

LINE = re.compile(rb"\n")


class Text:
    """A text whose bytes have lines and columns."""

    def __init__(self, text):
        self.text = text
        self.begins = [0, *(found.end() for found in LINE.finditer(text))]

    def place(self, at):
        """The place of a byte."""
        line = bisect.bisect_right(self.begins, at)
        return Place(line, at - self.begins[line - 1] + 1)


class Document(Text):
    """The parts of a TOML document that is read."""

    def __init__(self, text):
        super().__init__(text)
        self.root = toml_text.read(text)

    def at(self, *path):
        """The place to which keys, and numbers of lists from 0, lead, as far as they are there: that of a key, or of the first byte of a text in a list. A
        single text stands for a list of one."""
        node, place = self.root, TOP
        for step in path:
            if node.kind == TABLE and step in node.value:
                place, node = self.place(node.place(step)), node.member(step)
            elif node.kind == LIST and isinstance(step, int) and step < len(node.value):
                node = node.value[step]
                place = self.inside(node) if node.kind == TEXT else self.place(node.at)
            elif node.kind == TEXT and step == 0:
                place = self.inside(node)
            else:
                break
        return place

    def inside(self, node):
        """The place of the first byte of a text's value."""
        return self.place(within(self.text, node.at, 0))


class Script(Document):
    """The parts of a script that is read. What isn't there stands where what has it stands."""

    def __init__(self, text):
        super().__init__(text)
        self.states = {state.member("name").value: state for state in self.root.member("state").value}

    def key(self, name):
        """A key of the top."""
        return self.place(self.root.place(name)) if name in self.root.value else TOP

    def state(self, name):
        """A state: its name."""
        return self.inside(self.states[name].member("name")) if name in self.states else TOP

    def commands(self, state):
        """The commands of a state: the key of all."""
        return self.of_state(state, "do")

    def of_state(self, state, key):
        """A key of a state."""
        if state not in self.states or key not in self.states[state].value:
            return self.state(state)
        return self.place(self.states[state].place(key))

    def command(self, state, number):
        """A command of a state by its place among them, from 0."""
        node = self.states[state].member("do") if state in self.states else None
        return self.inside(node.value[number]) if node is not None and number < len(node.value) else self.state(state)

    def way_out(self, state, word):
        """A way out of a state: `ok`, `fault`, `timer`, or a line and a kind as `a.of`."""
        line, dot, kind = word.partition(".")
        if not dot:
            return self.of_state(state, word)
        notes = self.states[state].member("on") if state in self.states else None
        kinds = notes.member(line) if notes is not None else None
        return self.place(kinds.place(kind)) if kinds is not None and kind in kinds.value else self.state(state)

    def mark(self, state, names):
        """The pair of two lines among those that a state marks as talking."""
        node = self.states[state].member("talk") if state in self.states else None
        pairs = node.value if node is not None else []
        found = next((pair for pair in pairs if sorted(pair.value.split("-")) == sorted(names)), None)
        return self.inside(found) if found is not None else self.state(state)

    def step(self, state, link, words):
        """A step of the check from a point of a state: the command that is refused, all of them, or the way out."""
        word, _, number = words.partition(" ")
        if word == "hear":
            return self.key("restart")
        if word == "refuse":
            return self.command(state, int(number))
        if word == "execute":
            return self.commands(state)
        return self.way_out(state, {"fault": "fault"}.get(link, "ok") if word == "reply" else word)


class Certificate(Text):
    """The entries of a certificate that is read."""

    def __init__(self, text):
        super().__init__(text)
        self.firsts = [first for first, _ in entry_places.ends(text)]

    def entry(self, number):
        """An entry by its place among them, from 0."""
        return self.place(self.firsts[number])
