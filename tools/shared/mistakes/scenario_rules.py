"""The rules of a file of scenarios, for the lines and states of a script: docs/use/SCENARIOS.md. Of a script that can't be read no names are asked. What stands
under `intents` has rules of its own. It is installed too, so it knows nothing of this repository."""
from shared.mistakes import keys, scenario_words, told
from shared.mistakes.findings import Findings
from shared.mistakes.nodes import LIST, TABLE, TEXT
from shared.mistakes.scenario_words import PHASES, TONES
from shared.mistakes.words import listed, shown

NAME = "scenarios"
RULES, ALWAYS = ("always", "at_end"), ("never_hear", "may_hear")
TOP, SCENARIO = ("scenario", *RULES, "intents"), ("name", "steps", "report", *RULES)
EXPECTED = ("state", "phase", "hears", "tones")
STEP = ("do", *EXPECTED)
# How many words a scenario has at most, a symbol that is dialled counted as one, how many of these restart the gateway, and how long a name is.
MOST_WORDS, MOST_RESTARTS, MOST_NAME = 300, 15, 200


def size_of(word):
    """How many words one counts for: what is dialled has one for each symbol."""
    return len(word.split(" ")[-1]) if word.startswith("digits ") else 1


class Rules:
    """The look at scenarios of a script, which is none where that can't be read."""

    def __init__(self, findings, root, script):
        self.findings, self.root, self.script = findings, root, script
        # The scenario that has a name first.
        self.firsts = {}

    def bad(self, at, path, says, word="", known=()):
        """A bad key or value."""
        self.findings.add("BadKey", at, path, says, word, known)

    def table(self, path, node, known, begun):
        """The known keys of what has to be a table; none where it isn't one."""
        if node.kind == TABLE:
            return keys.tell(self.findings, "BadKey", path, node, known)
        self.bad(node.at, path, f"it has to be a table, {begun}")
        return None

    def texts(self, path, at, node):
        """The texts of a list, or of one text, each with its path."""
        if node.kind == TEXT:
            return [(path, node)]
        if node.kind != LIST:
            self.bad(at, path, "it has to be a text, or a list of texts")
            return []
        for number, item in enumerate(node.value, 1):
            if item.kind != TEXT:
                self.bad(item.at, f"{path}, value {number}", "it has to be a text")
        return [(f"{path}, value {number}", item) for number, item in enumerate(node.value, 1) if item.kind == TEXT]

    def flaw(self, path, node, flaw, fault):
        """What is wrong in a text; nothing where nothing is. A name that the script doesn't have is a fault of its own."""
        if flaw:
            fault = "Unknown" if flaw.says.endswith("is no line of the script") else fault
            at = self.findings.inside(node, flaw.before) if node.value else node.at
            self.findings.add(fault, at, f"{path}, {shown(node.value)}" if node.value else path, flaw.says, flaw.word, flaw.known)

    def one_of(self, path, node, known, what, fault="BadKey"):
        """A text that has to be one of some words; `known` is none where any may be."""
        if known is not None and node.value not in known:
            self.findings.add(fault, self.findings.inside(node, 0), path, f"{shown(node.value)} is no {what}", node.value, tuple(known))

    # ---- what is expected

    def state(self, path, at, node):
        """The state that is expected, or several of which one is."""
        known = None if self.script is None or "state" in self.script.may_have_more else self.script.texts("state")
        found = self.texts(path, at, node)
        for where, item in found:
            self.one_of(where, item, known, "state of the script", "Unknown")
        if node.kind == LIST and not node.value:
            self.bad(at, path, "it names no state")

    def phase(self, path, at, node):
        """The phase that is expected."""
        if node.kind != TEXT:
            self.bad(at, path, f"it has to be one of {listed(PHASES)}")
        else:
            self.one_of(path, node, PHASES, f"phase; they are {listed(PHASES)}")

    def pairs(self, path, at, node):
        """Pairs of lines."""
        if node.kind != LIST:
            self.bad(at, path, "it has to be a list of pairs of lines, which is empty where nobody hears anybody")
            return
        for where, item in self.texts(path, at, node):
            self.flaw(where, item, scenario_words.pair_flaw(item.value, self.script), "BadKey")

    def tones(self, path, at, node):
        """The tones that are expected on lines."""
        if node.kind != TABLE:
            self.bad(at, path, "it has to be a table of lines with their tones, as `{ a = [\"rt\"] }`")
            return
        for name, (key, value) in node.value.items():
            if self.script is not None and not self.script.knows("lines", name):
                self.findings.add("Unknown", key, path, f"{shown(name)} is no line of the script", name, self.script.texts("lines"))
            for where, item in self.texts(f"{path}, {shown(name)}", key, value):
                self.one_of(where, item, tuple(TONES), f"tone; they are {listed(TONES)}")

    def expected(self, path, found):
        """What is expected, of the known keys of a table."""
        look = {"state": self.state, "phase": self.phase, "hears": self.pairs, "tones": self.tones}
        for key in EXPECTED:
            if key in found:
                look[key](f"{path}: `{key}`", *found[key])

    # ---- scenarios

    def words(self, path, at, node):
        """What is done in a step."""
        found = self.texts(f"{path}: `do`", at, node)
        for where, item in found:
            self.flaw(where, item, scenario_words.word_flaw(item.value, self.script), "BadWord")
        if node.kind == LIST and not node.value:
            self.bad(at, path, "`do` has no word")
        return [item.value for _, item in found]

    def step(self, path, node):
        """A step; its words."""
        found = self.table(path, node, STEP, 'as `{ do = "off a" }`')
        if found is None:
            return []
        self.expected(path, found)
        if "do" not in found:
            keys.missing(self.findings, "BadKey", path, node, "do")
            return []
        return self.words(path, *found["do"])

    def steps(self, path, at, node):
        """The steps of a scenario."""
        if node.kind != LIST:
            self.bad(at, path, "`steps` has to be a list of steps", "steps")
            return
        if not node.value:
            self.bad(at, path, "`steps` has no step")
        words = [word for number, item in enumerate(node.value, 1) for word in self.step(f"{path}, step {number}", item)]
        counts = (("words", sum(size_of(word) for word in words), MOST_WORDS), ("restarts", words.count("restart"), MOST_RESTARTS))
        for what, count, most in counts:
            if count > most:
                self.findings.add("TooMany", at, path, f"it has {count} {what}, and {most} at most may be there", "steps")

    def name(self, path, at, node):
        """The name of a scenario."""
        if node.kind != TEXT or not node.value.strip() or len(node.value) > MOST_NAME or not node.value.isprintable():
            self.bad(at, path, f"`name` has to be a text of 1 to {MOST_NAME} signs in one line", "name")
        elif node.value in self.firsts:
            says = f"scenario {self.firsts[node.value]} has this name too"
            self.findings.add("Duplicate", self.findings.inside(node, 0), path, says, node.value)
        else:
            self.firsts[node.value] = path.rpartition(" ")[2]

    def scenario(self, number, node):
        """A scenario."""
        path = f"scenario {number}"
        found = self.table(path, node, SCENARIO, "begun by `[[scenario]]`")
        if found is None:
            return
        for key in ("name", "steps"):
            if key not in found:
                keys.missing(self.findings, "BadKey", path, node, key)
        if "name" in found:
            self.name(path, *found["name"])
        if "steps" in found:
            self.steps(path, *found["steps"])
        if "report" in found and found["report"][1].kind != TEXT:
            self.bad(found["report"][0], path, "`report` has to be a text", "report")
        self.rules(f"{path}: ", found, ('as `{ may_hear = ["a-b"] }`', 'as `{ phase = "ended" }`'))

    def rules(self, path, found, begun):
        """What has to hold, of the known keys of the file or of a scenario; `begun` is how each of the tables is."""
        for key, how in zip(RULES, begun):
            if key in found:
                where = f"{path}`{key}`"
                known = self.table(where, found[key][1], ALWAYS if key == "always" else EXPECTED, how) or {}
                self.expected(where, known)
                for pairs in ALWAYS:
                    if pairs in known:
                        self.pairs(f"{where}: `{pairs}`", *known[pairs])

    def scenarios(self, at, node):
        """The scenarios."""
        if node.kind != LIST:
            self.bad(at, "the top of the file", "`scenario` has to be tables, each begun by `[[scenario]]`", "scenario")
        for number, item in enumerate(node.value if node.kind == LIST else [node] if node.kind == TABLE else [], 1):
            self.scenario(number, item)

    def whole(self):
        """Looks at all of it."""
        found = keys.tell(self.findings, "BadKey", "the top of the file", self.root, TOP)
        if "scenario" in found:
            self.scenarios(*found["scenario"])
        elif "intents" not in found:
            self.bad(self.root.at, "the top of the file", "it has no scenario, which is begun by `[[scenario]]`")
        self.rules("", found, ("begun by `[always]`", "begun by `[at_end]`"))


def mistakes(script, text):
    """The mistakes of a file of scenarios of a script, in the order of the text."""
    findings = Findings(NAME, text)
    root = told.tree(findings)
    if root is not None:
        Rules(findings, root, told.of_script(Findings("script", script))).whole()
    return [*findings.mistakes()]
