"""The rules of a certificate, for the names of a script: docs/use/FORMATS.md, The certificate. Of a script that can't be read no names are asked. It is
installed too, so it knows nothing of this repository."""
import math
from collections import Counter

from shared.mistakes import keys, words
from shared.mistakes.nodes import LIST, TABLE, TEXT, WHOLE
from shared.mistakes.words import shown

TOP, ENTRY = ("version", "entries"), ("state", "link", "lines", "contexts", "ephemerals", "cuts")
MOST_ENTRIES, MOST_POINTS = 256, 65_536
# How many values of a component a sentence lists.
MOST_LISTED = 8
# The words of each component, and the sort of names of the script that it may have too.
LINK, MODE = (("sent", "ok", "fault", "rest"), None), (words.MODES, None)
OF_LINE = {"at": (("-",), "contexts"), "mode": MODE, "events": (("none", "armed"), "events"), "plays": (("no", "may"), None)}
OF_EPHEMERAL = {"at": (("absent",), "contexts"), "mode": MODE, "remote": (("none", "gone"), "ephemerals")}
OF_CONTEXT, OF_CUT = (("free", "live", "stale"), None), (("no", "yes"), None)
OF = {"lines": ("line", OF_LINE), "contexts": ("context", OF_CONTEXT), "ephemerals": ("ephemeral", OF_EPHEMERAL)}


class Rules:
    """The look at a certificate, and the script whose names it has; none where that can't be read."""

    def __init__(self, findings, root, script):
        self.findings, self.root, self.script, self.add = findings, root, script, findings.add

    def bad(self, at, path, says, word=""):
        """A bad key or value."""
        self.add("BadKey", at, path, says, word)

    def knows(self, sort, text):
        """Whether a name of a sort is declared, or may be."""
        return self.script is None or self.script.knows(sort, text)

    def texts(self, sort):
        """The names of a sort."""
        return self.script.texts(sort) if self.script is not None and sort else ()

    def component(self, path, at, key, node, vocabulary):
        """A set of values of a component; how many it has that are known."""
        if node.kind != LIST or any(item.kind != TEXT for item in node.value):
            wrong = node.value if node.kind == LIST else []
            for item in [item for item in wrong if item.kind != TEXT] or [None]:
                self.bad(at if item is None else item.at, path, "it has to be a list of texts", key)
            return 1
        if not node.value:
            self.add("EmptySet", node.at, path, "it has no value")
            return 1
        own, sort = vocabulary
        found = {item.value for item in node.value if item.value in own or sort and self.knows(sort, item.value)}
        known = (*own, *self.texts(sort))
        more = f"; its values are {words.listed(known)}" if len(known) <= MOST_LISTED else ""
        for item in node.value:
            if item.value not in found:
                self.add("Unknown", self.findings.inside(item, 0), path, f"{shown(item.value)} is no value of it{more}", item.value, known)
        return max(1, len(found))

    def termination(self, path, at, name, node, vocabularies):
        """The components of a line or of an ephemeral; how many points they have."""
        if node.kind != TABLE:
            self.bad(at, path, "it has to be an object", name)
            return 1
        found = keys.tell(self.findings, "BadKey", path, node, tuple(vocabularies))
        return math.prod(self.component(f"{path}.{key}", *found[key][:1], key, found[key][1], vocabularies[key]) for key in vocabularies if key in found)

    def name(self, path, at, what, sorts, name):
        """A name that stands as a key."""
        if not any(self.knows(sort, name) for sort in sorts):
            known = [text for sort in sorts for text in self.texts(sort)]
            self.add("Unknown", at, path, f"the script has no {what} {shown(name)}", name, known)

    def cut(self, path, at, key):
        """The two names of a key of the cuts."""
        first, sign, second = key.partition(">")
        if not sign:
            self.add("Unknown", at, path, "a key of `cuts` is two names with `>` between them", key)
            return
        for name, before in ((first, 0), (second, len(first.encode()) + 1)):
            self.name(path, self.findings.inside_key(at, before), "line or ephemeral", ("lines", "ephemerals"), name)
        if first == second:
            self.add("Unknown", at, path, "a cut has two different names", key)

    def members(self, path, key, found):
        """The components at a key whose object has names as keys; how many points they have."""
        if key not in found:
            return 1
        at, node = found[key]
        path = f"{path}: {key}"
        if node.kind != TABLE:
            self.bad(at, path, "it has to be an object", key)
            return 1
        return math.prod(self.member(f"{path}.{name}", key, place, name, value) for name, (place, value) in node.value.items())

    def member(self, path, key, at, name, node):
        """The components of one name; how many points they have."""
        if key == "cuts":
            self.cut(path, at, name)
            return self.component(path, at, name, node, OF_CUT)
        what, vocabulary = OF[key]
        self.name(path, at, what, (key,), name)
        if key == "contexts":
            return self.component(path, at, name, node, vocabulary)
        return self.termination(path, at, name, node, vocabulary)

    def state(self, path, found):
        """The state of an entry."""
        if "state" not in found:
            return
        at, node = found["state"]
        if node.kind != TEXT:
            self.bad(at, path, "`state` has to be the name of a state", "state")
        elif not self.knows("state", node.value):
            says = f"the script has no state {shown(node.value)}"
            self.add("Unknown", self.findings.inside(node, 0), path, says, node.value, self.texts("state"))

    def entry(self, place, node):
        """An entry; the state that it is of, where it has one."""
        path = f"entry {place}"
        if node.kind != TABLE:
            self.bad(node.at, path, "an entry has to be an object")
            return None
        state = keys.taken(node, ENTRY)[0].get("state")
        of = state[1].value if state and state[1].kind == TEXT else ""
        path = f"{path}, of state {shown(of)}" if of else f"{path}, which has no state"
        found = keys.tell(self.findings, "BadKey", path, node, ENTRY)
        for key in ("state", "link"):
            if key not in found:
                keys.missing(self.findings, "BadKey", path, node, key)
        self.state(path, found)
        points = self.component(f"{path}: link", found["link"][0], "link", found["link"][1], LINK) if "link" in found else 1
        points *= math.prod(self.members(path, key, found) for key in ("lines", "contexts", "ephemerals", "cuts"))
        if points > MOST_POINTS:
            self.add("TooManyPoints", node.at, path, f"it has {points} points, and {MOST_POINTS} at most may be there")
        return of

    def entries(self, nodes):
        """All entries, and of each state the first that is too many."""
        count = Counter()
        for place, node in enumerate(nodes):
            state = self.entry(place, node)
            count[state] += 1
            if state and count[state] == MOST_ENTRIES + 1:
                says = f"its state has {MOST_ENTRIES} entries before it, and more may not be there"
                self.add("TooManyEntries", node.at, f"entry {place}, of state {shown(state)}", says)

    def version(self, path, found):
        """The version."""
        if "version" not in found:
            return
        at, node = found["version"]
        if node.kind == WHOLE and node.value == 1:
            self.add("OldVersion", at, path, "its `version` is 1, and 2 is read", "version")
        elif node.kind != WHOLE or node.value != 2:
            self.bad(at, path, "`version` has to be the number 2", "version")

    def whole(self):
        """Looks at all of it."""
        path = "the top of the certificate"
        if self.root.kind != TABLE:
            self.bad(self.root.at, path, "it has to be an object with `version` and `entries`")
            return
        found = keys.tell(self.findings, "BadKey", path, self.root, TOP)
        for key in TOP:
            if key not in found:
                keys.missing(self.findings, "BadKey", path, self.root, key)
        self.version(path, found)
        if "entries" in found and found["entries"][1].kind != LIST:
            self.bad(found["entries"][0], path, "`entries` has to be a list", "entries")
        elif "entries" in found:
            self.entries(found["entries"][1].value)
