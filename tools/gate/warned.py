"""What `mgexplain` says that a yes is worth, for `tools/gate/explain`: the script of gallery/hotline with one thing more that no call uses, with a certificate
that is made by doing what is said, that story's own certificate with one entry more, and scripts of gallery/patterns. What has to be warned of is reasoned by
hand. With `--strict` a yes with a warning has status 1, and all else has the status that it has without."""
import json
import tomllib

from gate import lifted, plain_drafts, told_words
from gate.told_runs import DIVIDER, TOP
from gate.told_words import asked

STORY = TOP / "gallery" / "hotline"
MOST = 200
# Two telephones, of which one, when it is lifted, leads to the state that stands in the middle.
SMALL = """lines = ["a", "b"]
start = "idle"
restart = "rearm"

[[state]]
name = "idle"
on.a.of = "middle"

[[state]]
name = "middle"
{middle}

[[state]]
name = "rearm"
do = ["modify - a events=armed signals=none", "modify - b events=armed"]
ok = "done"
fault = "rearm"

[[state]]
name = "done"
end = true
"""
# Scripts: the name, what takes the place of what in the story's, and what is warned of, as its word and the state. In each of them a call opens in `idle`
# with both lines armed, and one of them leads on: of the other one nothing is said, since that is the start state.
STORIES = (
    ("the story", "", "", []),
    ("a state more", 'name = "done"\nend = true', 'name = "done"\nend = true\n\n[[state]]\nname = "spare"\nend = true', [("state_unlisted", "spare")]),
    ("a mark more", 'name = "rearm"', 'name = "rearm"\ntalk = ["gate-guard"]', [("mark_unneeded", "rearm")]),
    ("a transition more", 'on.guard.of = "answer"', 'on.guard.of = "answer"\non.guard.on = "part"', [("arrow_unused", "ring")]),
    ("two transitions more", 'on.guard.on = "part"', 'on.guard.on = "part"\non.guard.fl = "part"\non.gate.of = "part"', [("arrow_unused", "answer")] * 2),
)
# The same of what stands in the middle, where a line that is still armed leads nowhere.
MIDDLE_NOTE = ("note_swallowed", "middle")
# Calls are stuck in it, and none that is still before it can be brought to its end.
STUCK = [("cannot_end", "idle"), ("cannot_be_moved", "middle"), ("cannot_end", "middle")]
MIDDLES = (
    ("nothing leads out", "", [("state_never_left", "middle"), MIDDLE_NOTE, MIDDLE_NOTE, *STUCK]),
    ("a dead telephone", 'do = ["modify - a events=none"]\nfault = "rearm"\ntimer = "rearm"', [("line_deaf", "middle"), MIDDLE_NOTE]),
    ("two dead telephones", 'do = ["modify - a events=none", "modify - b events=none"]\nfault = "rearm"\ntimer = "rearm"', [("line_deaf", "middle")] * 2),
    ("both", 'do = ["modify - a events=none"]\nfault = "middle"', [("line_deaf", "middle"), ("state_never_left", "middle"), MIDDLE_NOTE, *STUCK]),
    ("a way out", 'timer = "rearm"', [MIDDLE_NOTE, MIDDLE_NOTE]),
    ("a way out by each line", 'timer = "rearm"\non.a.of = "rearm"\non.b.of = "rearm"', []),
)
# Two telephones whose call waits until both are put down, whatever is lifted again meanwhile, also after a restart.
WAITING = (TOP / "tests" / "mgtool" / "waiting" / "script.toml").read_text()
# The same with something else in it, and what is warned of telephones that are forgotten: the word, the state and the line. In `wait` and in `b_down` a is lifted
# with the list that it was given in `wait`. A tone may end by itself, so it doesn't count as heard.
SILENT = [("lifted_in_silence", "wait", "a"), ("lifted_in_silence", "b_down", "a")]
RECEIVERS = (
    ("all are put down", "", "", []),
    ("an end while a is lifted", 'on.b.on = "b_down"', 'on.b.on = "rearm"', [("lifted_at_end", "done", "a")]),
    ("a list without events", "modify - a events=hang", "modify - a events=none", SILENT),
    ("a list without events, and a tone", "modify - a events=hang", "modify - a events=none signals=busy", SILENT),
    ("a list without events, and a bell", "modify - a events=hang", "modify - a events=none signals=bell", SILENT),
)
# Certificates: the name, the entries with which the story's own begin and end, and what is warned of: its word, the entry, its point and the other entry.
IDLE = {"state": "idle", "link": ["rest"], "lines": {"gate": {"events": ["none"]}}}
WIDE_IDLE = {"state": "idle", "link": ["rest"], "lines": {"gate": {"events": ["none", "armed"]}}}
ENTRIES = (
    ("the story's", [], [], []),
    ("no call comes there", [], [IDLE], [("entry_unreached", 15, None, None)]),
    ("no call comes there, first", [IDLE], [], [("entry_unreached", 0, None, None)]),
    ("the last once more", [], [{"state": "done", "link": ["ok", "rest"]}], [("entry_held", 15, None, 14)]),
    ("part of the last", [], [{"state": "done", "link": ["rest"]}], [("entry_held", 15, None, 14)]),
    ("part of the last, first", [{"state": "done", "link": ["rest"]}], [], [("entry_held", 0, None, 15)]),
    ("more than the first", [], [WIDE_IDLE], [("entry_held", 0, None, 15), ("point_unreached", 15, 0, None)]),
    ("held where no call comes", [], [IDLE, WIDE_IDLE],
     [("entry_held", 0, None, 16), ("entry_held", 15, None, 16), ("entry_unreached", 15, None, None), ("point_unreached", 16, 0, None)]),
)
# Patterns of gallery/patterns: what is warned of in states where they aren't followed, but for notes that come to nothing and telephones that are forgotten;
# where they are, nothing is.
PATTERNS = {
    "end_marked": {"state_never_left", "cannot_be_moved", "cannot_end"},
    "armed_for": {"arrow_unused", "state_unlisted"},
    "no_dead_line": {"arrow_unused", "line_deaf"},
    "clearing": {"command_refused", "cannot_end"},
}
# Scripts of the patterns, with the states and the lines of which it is warned that a line is heard while its receiver is down.
HEARD = {
    ("permission", "without"): [("ring", "b")],
    ("permission", "mended"): [],
    ("star", "with"): [("talk", "b")],
    ("cut_off", "without"): [("back", "b"), ("hold", "b"), ("talk", "b")],
    ("end_marked", "mended"): [],
}


def joined(script, entries):
    """A script and a certificate with these entries as an input."""
    return script.strip().encode() + b"\n" + DIVIDER + json.dumps({"version": 2, "entries": entries}).encode() + b"\n"


def drafted(program, script):
    """Entries that are made by doing what is said from nothing on, with no configuration that no call comes to."""

    def page_of(entries):
        return told_words.facts(program, joined(script, entries))[1]

    table = tomllib.loads(script)
    return plain_drafts.followed(page_of, [], lambda entries, page: plain_drafts.exactly(table, False, entries, page), MOST).entries


def status_wrong(program, data, page):
    """What is wrong with the status where warnings count."""
    wanted = 1 if page["line"].startswith("yes ") and page.get("warnings") != [] else page["status"]
    status, text = asked(program, data, "--strict")
    if (status, text) != (wanted, asked(program, data)[1]):
        yield f"status {status} with --strict, and not {wanted}, or another text"
    for words in (("--strict", "--json"), ("--json", "--strict")):
        status, output = asked(program, data, *words)
        if status != wanted or json.loads(output) != {**page, "status": wanted}:
            yield f"status {status} with {' '.join(words)}, and not {wanted}, or another value"


def wrong(program, data, facts, wanted, of_receivers=False):
    """What is wrong with what is warned of: of telephones that are forgotten, or of all else."""
    page = told_words.facts(program, data)[1]
    if not page["line"].startswith("yes "):
        yield page["line"]
    told = [facts(warning) for warning in page.get("warnings", []) if (warning["warning"] in lifted.WARNINGS) == of_receivers]
    if sorted(told, key=str) != sorted(wanted, key=str):
        yield f"{told}, and not {wanted}"
    yield from status_wrong(program, data, page)


def patterns(program):
    """Each script of the patterns with what is wrong with what is warned of in its states."""
    for name, unfollowed in PATTERNS.items():
        for folder in sorted((TOP / "gallery" / "patterns" / name).iterdir()):
            script, certificate = ((folder / file).read_bytes() for file in ("script.toml", "certificate.json"))
            page = told_words.facts(program, script + DIVIDER + certificate)[1]
            told = {warning["warning"] for warning in page.get("warnings", []) if "state" in warning} - {"note_swallowed", *lifted.WARNINGS}
            wanted = unfollowed if folder.name == "without" else set()
            yield f"warnings: {name} {folder.name}", [] if told == wanted else [f"{told}, and not {wanted}"]


def heard(program):
    """Scripts of the patterns with what is wrong with what is warned of lines that are heard while their receivers are down."""
    for (name, kind), wanted in HEARD.items():
        folder = TOP / "gallery" / "patterns" / name / kind
        page = told_words.facts(program, DIVIDER.join((folder / file).read_bytes() for file in ("script.toml", "certificate.json")))[1]
        told = sorted((one["state"], *one["names"]) for one in page["warnings"] if one["warning"] == "heard_put_down")
        yield f"warnings: heard in {name} {kind}", [] if told == wanted else [f"{told}, and not {wanted}"]


def of_state(warning):
    return warning["warning"], warning.get("state")


def of_receiver(warning):
    return warning["warning"], warning.get("state"), *warning.get("names", [])


def of_entry(warning):
    return tuple(warning.get(key) for key in ("warning", "entry_place", "point_number", "held_by"))


def scripts():
    """The name of each script, its text, and what is warned of."""
    story = (STORY / "script.toml").read_text()
    for name, old, new, wanted in STORIES:
        yield name, story.replace(old, new, 1) if old else story, wanted
    for name, middle, wanted in MIDDLES:
        yield name, SMALL.format(middle=middle), wanted


def judged(program):
    """All that is tried, each with what is wrong with it."""
    for name, script, wanted in scripts():
        data = joined(script, drafted(program, script))
        yield f"warnings: {name}", [*wrong(program, data, of_state, wanted)]
    for name, old, new, wanted in RECEIVERS:
        script = WAITING.replace(old, new, 1) if old else WAITING
        yield f"warnings: {name}", [*wrong(program, joined(script, drafted(program, script)), of_receiver, wanted, True)]
    script, own = (STORY / "script.toml").read_text(), json.loads((STORY / "certificate.json").read_text())["entries"]
    for name, first, last, wanted in ENTRIES:
        yield f"warnings: {name}", [*wrong(program, joined(script, [*first, *own, *last]), of_entry, wanted)]
    yield from patterns(program)
    yield from heard(program)
    for name, words, data in (
        ("of a plan", ("--strict",), joined(script, own) + DIVIDER + (STORY / "plan.toml").read_bytes()),
        ("of a plan as JSON", ("--strict", "--json"), joined(script, own) + DIVIDER + (STORY / "plan.toml").read_bytes()),
    ):
        status, output = asked(program, data, *words)
        yield f"warnings {name}", [] if status == 2 and "usage: " in output else [f"{status} {output}"]
