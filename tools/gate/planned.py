"""Trials of `mgtool plan`: a run of the plans of the stories' scenarios leaves each call where its scenario ends; the text of a plan; scenarios by their names,
by a word of these, and unknown ones; calls whose gateway restarts; what can't be done; a No, mistakes, and files that can't be taken."""
import tomllib

from shared import asking
from shared.programs import TOP

HOTLINE, SHOWN = TOP / "gallery" / "hotline", "script.scenarios.toml"
HEAD = "# Scenarios of {} as calls of a plan, each on lines of its own.\n"
NOBODY = """
# nobody answers
[[call]]
lines = [1, 2]
epochs = [[
  "off gate", "note", "execute", "reply",
  "end guard al/ri",
  "timer", "execute", "reply", "execute", "reply", "pass",
  "on gate",
]]
"""
# Of two calls the second has its gateway restart.
TWO = """[[scenario]]
name = "he waits"
steps = [{ do = "off gate", state = "ring" }]
[[scenario]]
name = "the gateway restarts"
steps = [{ do = ["off gate", "off guard", "restart"], state = "done", phase = "ended" }]
"""
RESTARTED = """
# he waits
# Behind its steps the gateway restarts for other calls, so its phase is `lost` in the report.
[[call]]
lines = [1, 2]
epochs = [[
  "off gate", "note", "execute", "reply",
]]

# the gateway restarts
[[call]]
lines = [3, 4]
epochs = [[
  "off gate", "note", "execute", "reply",
  "off guard", "note", "execute", "reply",
], [
  "hear", "execute", "reply", "pass",
]]
"""
UNDONE = """[[scenario]]
name = "he lifts twice"
steps = [{ do = "off gate" }, { do = "off gate" }, { do = "on gate" }]
"""
LIFTED_TWICE = """
# he lifts twice
[[call]]
lines = [1, 2]
epochs = [[
  "off gate", "note", "execute", "reply",
  "off gate",
]]
"""
# Words that name scenarios of the telephone at a gate which aren't there, and what is said of them.
UNKNOWN = (
    (["nobody answer"], "no scenario has the name 'nobody answer' (did you mean 'nobody answers'?)"),
    (["nobody answers", "Guard Lifts"], "no scenario has the name 'Guard Lifts' (did you mean 'the visitor hangs up while the guard lifts'?)"),
    (["the dog barks"], "no scenario has the name 'the dog barks';"),
    (["-k", "dog"], "no scenario has 'dog' in its name;"),
)


def words_of(folder, *more):
    """The words that ask about the scenarios of the script in a folder."""
    return [folder / "script.toml", "--certificate", folder / "certificate.json", *more]


def ran(told, folder, plan, top):
    """The report of a run of a plan that is written."""
    (top / "plan.toml").write_text(plan)
    status, report, error = told(words_of(folder, top / "plan.toml"), "run")
    return report if status == 0 else f"status {status}: {report}{error}"


def ends(report):
    """The last line of each call of a report, in their order, as its words."""
    found = {}
    for line in report.splitlines():
        number, *words = line.split(" ")[1:]
        found[number.partition(".")[0]] = words
    return [*found.values()]


def of_story(told, folder, top):
    """The scenarios of a story: each call of the plan ends where its scenario does, as its steps are recorded."""
    status, plan, error = told(words_of(folder, "--scenarios", folder / SHOWN), "plan")
    scenarios = tomllib.loads(told(words_of(folder, "--scenarios", folder / SHOWN, "--record", "-"))[1])["scenario"]
    named = [line.removeprefix("# ") for line in plan.splitlines() if line.startswith("# ")][1:]
    yield f"{folder.name}: {error}", (status, named) == (0, [one["name"] for one in scenarios])
    report = ran(told, folder, plan, top)
    found = ends(report)
    yield f"{folder.name}: a call for each scenario: {report}", len(found) == len(scenarios) > 0
    for one, words in zip(scenarios, found):
        last = one["steps"][-1]
        yield f"{folder.name}, {one['name']}: {words}", words[:2] == [last["state"], last["phase"]] and one.get("report") in (None, " ".join(words))


def of_names(told, top):
    """Scenarios by their names, and by a word of these: those that are asked for, in the order of the file."""
    head = HEAD.format(HOTLINE / SHOWN)
    for more in (["nobody answers"], ["-k", "nobody"], ["nobody answers", "-k", "nobody"]):
        found = told(words_of(HOTLINE, *more), "plan")
        yield f"{more}: {found}", found == (0, f"{head}{NOBODY}", "")
    yield "the page shows it", NOBODY in (TOP / "docs" / "use" / "SCENARIOS.md").read_text().replace("```toml", "")
    yield "the report of one", ran(told, HOTLINE, f"{head}{NOBODY}", top) == "call 0 done ended events=12 idle=0\n"
    whole = told(words_of(HOTLINE), "plan")[1].split("\n\n")
    two = told(words_of(HOTLINE, "the guard's line can't be rung, and then it can", "the guard answers"), "plan")[1].split("\n\n")
    yield f"two of four: {two}", [part.partition("\n")[0] for part in two] == [part.partition("\n")[0] for part in (whole[0], whole[1], whole[4])]
    for more, says in UNKNOWN:
        status, output, error = told(words_of(HOTLINE, *more), "plan")
        yield f"{more}: {error}", (status, output, error.count("\n")) == (asking.WORDS, "", 1) and says in error


def of_texts(told, top):
    """Scenarios of which a restart strikes others, and of which a word can't be done, from files and from standard input."""
    given = words_of(HOTLINE, "--scenarios", "-")
    status, plan, error = told(given, "plan", input=TWO)
    yield f"a restart: {plan}{error}", (status, plan, error) == (0, f"{HEAD.format('<stdin>')}{RESTARTED}", "")
    yield "its report", ran(told, HOTLINE, plan, top) == "call 0 ring lost events=4 idle=0\ncall 1 done ended events=12 idle=0\n"
    status, plan, error = told(given, "plan", input=UNDONE)
    is_told = error.startswith("<stdin>:3:31: error: scenario `he lifts twice`, step 2: `off gate` can't be done: ") and error.count("\n") == 1
    yield f"what can't be done: {plan}{error}", (status, plan) == (1, f"{HEAD.format('<stdin>')}{LIFTED_TWICE}") and is_told
    yield "its report as well", ran(told, HOTLINE, plan, top) == "call 0 ring resting events=4 idle=1\n"
    found = told(given, "plan", input="[intents.answer]\nhears = [\"gate-guard\"]\n")
    yield f"no scenario: {found}", found == (0, HEAD.format("<stdin>"), "")
    yield "the report of none", ran(told, HOTLINE, found[1], top) == ""


def of_files(told, top):
    """What nothing is written of: files that can't be taken, a file with a mistake, and a No."""
    mistaken = top / "mistaken.toml"
    mistaken.write_text(UNDONE.replace("on gate", "on gaet"))
    for path, says in (
        (top / "nowhere", ": error: No such file or directory [input]"),
        (top, ": error: Is a directory [input]"),
        (HOTLINE / "plan.toml", ":1:1: error: this is a plan, and a file of scenarios has to stand in its place [input]"),
        (mistaken, ":3:63: error: scenario 1, step 3: `do`, `on gaet`: `gaet` is no line of the script (did you mean `gate`?) [scenarios fault 4 Unknown]"),
    ):
        found = told(words_of(HOTLINE, "--scenarios", path), "plan")
        yield f"{path.name}: {found}", found == (asking.FILES, "", f"{path}{says}\n")
    status, output, error = told(words_of(HOTLINE / "twin", "--scenarios", HOTLINE / SHOWN), "plan")
    yield f"a No: {error}", (status, output, error.splitlines()[-1]) == (1, "", "no K3 entry=3 point=0 step=-")


def tried(told, top):
    """All trials; `told` calls a command of mgtool."""
    for folder in sorted(path.parent for path in (TOP / "gallery").glob(f"*/{SHOWN}")):
        yield from of_story(told, folder, top)
    for part in (of_names, of_texts, of_files):
        yield from part(told, top)
