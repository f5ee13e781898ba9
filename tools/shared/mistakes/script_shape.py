"""The keys and values of a script: what isn't of the format's forms (`BadKey`), and what the script says as far as it can be read. It is installed too, so it
knows nothing of this repository."""
from collections import namedtuple

from shared.mistakes import commands, items, keys, words
from shared.mistakes.findings import MOST_MEANT
from shared.mistakes.near import MOST_WORDS, nearest
from shared.mistakes.nodes import LIST, TABLE, TEXT, TRUTH
from shared.mistakes.words import FORM, is_name, shown

TOP = ("lines", "contexts", "ephemerals", "start", "restart", "events", "signals", "maps", "state")
# The arrays of tables: the keys of a table of each, and what it is called.
TABLES = {
    "events": (("name", "list"), "events list"),
    "signals": (("name", "list"), "signals list"),
    "maps": (("name", "map"), "map"),
    "state": (("name", "do", "talk", "end", "ok", "fault", "timer", "on"), "state"),
}
WHAT = {"lines": "line", "contexts": "context", "ephemerals": "ephemeral"} | {key: what for key, (_, what) in TABLES.items()}

# A name that is declared, or named where another one is: it, the node of the text that has it, and the byte of that text at which it stands.
Name = namedtuple("Name", "text node before", defaults=(0,))
# A table of an array: what it is called in a path, its node, its known keys, its name and what it holds.
Held = namedtuple("Held", "path node keys name parts")


class Script:
    """What a script says as far as it can be read: the names of each sort, and the sorts that may have names more, which can't be told."""

    def __init__(self, names, may_have_more):
        self.names, self.may_have_more = names, may_have_more
        self.sets = {sort: frozenset(name.text for name in names[sort]) for sort in WHAT}
        self.fronts = {sort: tuple(name.text for name in names[sort][:MOST_WORDS] if is_name(name.text)) for sort in WHAT}
        # For how many names more it is sought whether they are near to one: it takes long beside the rest.
        self.left = MOST_MEANT
        # The keys of its top, what `start` and `restart` name, and the tables of each array.
        self.top, self.named, self.tables = {}, {}, {key: [] for key in TABLES}

    def texts(self, sort):
        """The names of a sort, as many as may have been meant by another one."""
        return self.fronts[sort]

    def knows(self, sort, text):
        """Whether a name of a sort is declared, or may be: one of those that can't be told, but for one that is near to another."""
        if text in self.sets[sort] or sort not in self.may_have_more:
            return text in self.sets[sort]
        self.left -= 1
        return self.left < 0 or nearest(text, self.fronts[sort]) is None

    def declares(self, sort, text):
        """Whether a name of a sort is declared."""
        return text in self.sets[sort]


def named_by(sort, node):
    """The value that names a thing of a sort, of the value that declares it; none where there is none."""
    if sort not in TABLES:
        return node
    return keys.taken(node, TABLES[sort][0])[0].get("name", (0, None))[1] if node.kind == TABLE else None


def naming(sort, found):
    """What names the things of a sort in a script, of the known keys of its top: a value for each, none where it has none."""
    if sort not in found:
        return [None] if sort == "lines" else []
    node = found[sort][1]
    if node.kind != LIST:
        return [named_by(sort, node)] if sort in TABLES else [None]
    return [named_by(sort, item) for item in node.value]


def script_of(found):
    """A script with these keys at its top, of which the names alone are known yet. Where a name is missing or is no text there may be any, so that what uses it
    isn't told at each place."""
    naming_of = {sort: naming(sort, found) for sort in WHAT}
    names = {sort: [Name(node.value, node) for node in nodes if node is not None and node.kind == TEXT] for sort, nodes in naming_of.items()}
    open_sorts = {sort for sort, nodes in naming_of.items() if len(names[sort]) < (max(2, len(nodes)) if sort == "lines" else len(nodes))}
    return Script(names, open_sorts)


class Shape:
    """The look at the keys and values of a script."""

    def __init__(self, findings, root):
        self.findings, self.root = findings, root
        self.top = keys.taken(root, TOP)[0]
        self.script = script_of(self.top)

    def bad(self, at, path, says, word="", known=()):
        """A bad key or value."""
        self.findings.add("BadKey", at, path, says, word, known)

    def flaws(self, node, path, flaws):
        """What is wrong in a text."""
        for flaw in flaws:
            self.bad(self.findings.inside(node, flaw.before), f"{path}, {shown(node.value)}", flaw.says, flaw.word, flaw.known)

    def text(self, path, found, key):
        """The text at a key; none where it isn't there, or is none."""
        if key not in found:
            return None
        at, node = found[key]
        if node.kind != TEXT:
            self.bad(at, path, f"`{key}` has to be a text", key)
            return None
        return Name(node.value, node)

    def texts(self, path, found, key):
        """The texts of the list at a key, each with its path; none where it is no list."""
        if key not in found:
            return []
        at, node = found[key]
        path = f"{path}: `{key}`"
        if node.kind != LIST:
            self.bad(at, path, "it has to be a list of texts", key)
            return None
        for number, item in enumerate(node.value, 1):
            if item.kind != TEXT:
                self.bad(item.at, f"{path}, value {number}", "it has to be a text")
        return [(f"{path}, value {number}", item) for number, item in enumerate(node.value, 1) if item.kind == TEXT]

    def read(self, path, found, key, reader):
        """What the texts of the list at a key say, each with its path and its node, by what reads one and tells its flaws."""
        read = []
        for of, node in self.texts(path, found, key) or []:
            *said, flaws = reader(node.value)
            self.flaws(node, of, flaws)
            read.append((of, node, *said))
        return read

    def needed(self, path, node, found, wanted):
        """Looks whether the keys are there that a table has to have."""
        for key in wanted:
            if key not in found:
                keys.missing(self.findings, "BadKey", path, node, key)

    def listed(self, key):
        """The tables of the array at a key, each with its place from 1."""
        if key not in self.top:
            return []
        at, node = self.top[key]
        says = f"it has to be tables, each begun by `[[{key}]]`"
        if node.kind != LIST:
            self.bad(at, f"`{key}`", says, key)
            return [(1, node)] if node.kind == TABLE else []
        for number, item in enumerate(node.value, 1):
            if item.kind != TABLE:
                self.bad(item.at, f"`{key}`, value {number}", says)
        return [(number, item) for number, item in enumerate(node.value, 1) if item.kind == TABLE]

    def held(self, key, number, node):
        """A table of the array at a key, with what is wrong in it."""
        known, what = TABLES[key]
        named = keys.taken(node, known)[0].get("name")
        has_name = named is not None and named[1].kind == TEXT
        path = f"{what} {shown(named[1].value)}" if has_name else f"{what} {number}, which has no name"
        found = keys.tell(self.findings, "BadKey", path, node, known)
        self.needed(path, node, found, known if key != "state" else ("name",))
        name = self.text(path, found, "name")
        return Held(path, node, found, name, self.parts(key, path, found))

    def parts(self, key, path, found):
        """What a table of the array at a key holds behind its name."""
        if key == "events":
            return self.read(path, found, "list", items.item)
        if key == "signals":
            return self.read(path, found, "list", lambda text: (text, items.signal(text)))
        if key == "maps":
            return self.text(path, found, "map")
        return {
            "do": self.read(path, found, "do", lambda text: commands.command(text, self.script)),
            "talk": self.read(path, found, "talk", items.pair),
            "on": self.notes(path, found),
            "end": self.truth(path, found),
            **{of: self.text(path, found, of) for of in ("ok", "fault", "timer")},
        }

    def truth(self, path, found):
        """Whether a state is an end state."""
        if "end" not in found:
            return False
        at, node = found["end"]
        if node.kind != TRUTH:
            self.bad(at, path, "`end` has to be `true` or `false`", "end")
        return node.value is True

    def notes(self, path, found):
        """Where the notes of a state lead: path, the line with its byte, and the target."""
        if "on" not in found:
            return []
        at, node = found["on"]
        if node.kind != TABLE:
            self.bad(at, path, "`on` has to be a table, as `on.LINE.KIND`", "on")
            return []
        return [note for line, (place, of) in node.value.items() for note in self.line(path, line, place, of)]

    def line(self, path, line, place, node):
        """Where the notes of a line lead."""
        if node.kind != TABLE:
            self.bad(place, path, f"`on.{line}` has to be `on.LINE.KIND`", line)
            return []
        if not is_name(line):
            self.bad(place, path, f"{shown(line)} is no name of a line: {FORM}", line)
        targets = [(kind, self.target(path, line, kind, *found)) for kind, found in node.value.items()]
        return [(f"{path}: `on.{line}.{kind}`", line if is_name(line) else None, place, target) for kind, target in targets]

    def target(self, path, line, kind, at, node):
        """Where a note of a line and kind leads."""
        if kind not in words.KINDS:
            self.bad(at, f"{path}: `on.{line}`", f"{shown(kind)} is no kind of note; the kinds are {words.listed(words.KINDS)}", kind, words.KINDS)
        if node.kind != TEXT:
            self.bad(at, f"{path}: `on.{line}.{kind}`", "it has to be the name of a state", kind)
            return None
        return Name(node.value, node)

    def names(self, path):
        """Looks at the keys of the top that declare names in lists."""
        self.needed(path, self.root, self.top, ("lines",))
        for sort in ("lines", "contexts", "ephemerals"):
            self.texts(path, self.top, sort)
        if "lines" in self.top and self.top["lines"][1].kind == LIST and len(self.top["lines"][1].value) < 2:
            self.bad(self.top["lines"][0], path, "`lines` has to name two lines at least", "lines")

    def whole(self):
        """Looks at the whole script, and says what it says."""
        script, path = self.script, "the top of the script"
        keys.tell(self.findings, "BadKey", path, self.root, TOP)
        self.names(path)
        script.top = self.top
        script.named = {key: self.text(path, self.top, key) for key in ("start", "restart")}
        script.tables = {key: [self.held(key, *one) for one in self.listed(key)] for key in TABLES}
        return script


def is_plan(root):
    """Whether the table at the top of a document is one of a plan."""
    return "call" in root.value and "state" not in root.value
