"""The rules of a plan, for the lines of a script: docs/use/FORMATS.md, The plan. Of a script that can't be read no lines are asked. It is installed too, so
it knows nothing of this repository."""
from shared.mistakes import keys, steps
from shared.mistakes.nodes import LIST, TABLE, TEXT, WHOLE
from shared.mistakes.words import shown

TOP, CALL = ("call", "shards"), ("lines", "epochs")
MOST_LINE, MOST_SHARDS, MOST_EPOCHS, MOST_STEPS = 4_294_967_295, 16, 16, 1000


def is_number(node, most):
    """Whether a value is a whole number of 1 to this one."""
    return node.kind == WHOLE and 1 <= node.value <= most


class Rules:
    """The look at a plan of calls of a script, which is none where that can't be read."""

    def __init__(self, findings, root, script):
        self.findings, self.root, self.script = findings, root, script
        # How many lines a call has; none where that can't be told.
        self.lines = None if script is None or "lines" in script.may_have_more else len(script.names["lines"])
        # The call and the place in it that named a line first.
        self.firsts = {}

    def bad(self, at, path, says, word="", known=()):
        """A bad step, key or value."""
        self.findings.add("BadStep", at, path, says, word, known)

    def line(self, call, place, node):
        """A line of a call."""
        path = f"call {call}: `lines`, value {place + 1}"
        if not is_number(node, MOST_LINE):
            self.bad(node.at, path, "it has to be a whole number of 1 to 4,294,967,295", str(node.value) if node.kind == WHOLE else "")
            return
        if node.value in self.firsts:
            first, at = self.firsts[node.value]
            self.bad(node.at, path, f"line {node.value} is named before, by call {first}, value {at + 1}", str(node.value))
        self.firsts.setdefault(node.value, (call, place))

    def count(self, call, at, node):
        """The lines of a call."""
        if node.kind != LIST:
            self.bad(at, f"call {call}", "`lines` has to be a list of whole numbers", "lines")
            return
        for place, item in enumerate(node.value):
            self.line(call, place, item)
        if self.lines is not None and len(node.value) != self.lines:
            self.bad(at, f"call {call}", f"`lines` names {len(node.value)}, and the script has {self.lines} lines", "lines")

    def step(self, path, node):
        """A step of an epoch."""
        if node.kind != TEXT:
            self.bad(node.at, path, "it has to be a text")
            return
        flaw = steps.step_flaw(node.value, self.script)
        if flaw:
            at = self.findings.inside(node, flaw.before) if node.value else node.at
            self.bad(at, f"{path}, {shown(node.value)}" if node.value else path, flaw.says, flaw.word, flaw.known)

    def epoch(self, path, node):
        """An epoch of a call; how many steps it has."""
        if node.kind != LIST:
            self.bad(node.at, path, "it has to be a list of steps")
            return 0
        for place, item in enumerate(node.value):
            self.step(f"{path}, value {place + 1}", item)
        return len(node.value)

    def epochs(self, call, at, node):
        """The epochs of a call."""
        path = f"call {call}"
        if node.kind != LIST:
            self.bad(at, path, "`epochs` has to be a list of epochs, each a list of steps", "epochs")
            return
        count = sum(self.epoch(f"{path}: `epochs`, value {place + 1}", item) for place, item in enumerate(node.value))
        if len(node.value) > MOST_EPOCHS:
            self.findings.add("TooMany", at, path, f"it has {len(node.value)} epochs, and {MOST_EPOCHS} at most may be there", "epochs")
        if count > MOST_STEPS:
            self.findings.add("TooMany", at, path, f"it has {count} steps, and {MOST_STEPS} at most may be there", "epochs")

    def call(self, call, node):
        """A call."""
        path = f"call {call}"
        if node.kind != TABLE:
            self.bad(node.at, path, "it has to be a table, begun by `[[call]]`")
            return
        found = keys.tell(self.findings, "BadStep", path, node, CALL)
        for key in CALL:
            if key not in found:
                keys.missing(self.findings, "BadStep", path, node, key)
        if "lines" in found:
            self.count(call, *found["lines"])
        if "epochs" in found:
            self.epochs(call, *found["epochs"])

    def calls(self, at, node):
        """The calls."""
        if node.kind != LIST:
            self.bad(at, "the top of the plan", "`call` has to be tables, each begun by `[[call]]`", "call")
        for place, item in enumerate(node.value if node.kind == LIST else [node] if node.kind == TABLE else []):
            self.call(place, item)

    def whole(self):
        """Looks at all of it."""
        path = "the top of the plan"
        if "call" not in self.root.value and "state" in self.root.value:
            key = next(key for key in self.root.value if key not in TOP)
            self.bad(self.root.place(key), path, f"the key {shown(key)} isn't known; this is a script, and no plan", key)
            return
        found = keys.tell(self.findings, "BadStep", path, self.root, TOP)
        if "call" in found:
            self.calls(*found["call"])
        if "shards" in found and not is_number(found["shards"][1], MOST_SHARDS):
            self.bad(found["shards"][0], path, "`shards` has to be a whole number of 1 to 16", "shards")
