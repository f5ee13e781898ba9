"""Inputs of `mgcall run` that are a yes, made for measuring: of each its name, the head with script and certificate, the lines and the steps of a call."""
from collections import namedtuple
from pathlib import Path

from shared import walked

EXAMPLES = Path(__file__).resolve().parents[2] / "examples"
# A script with its certificate, as many lines as it has, and the steps of each call.
Kind = namedtuple("Kind", "name head lines steps")
LIFTED, LAID = "off a|note|execute|reply".split("|"), "on a|note|execute|reply".split("|")
TIMED = "timer|execute|reply".split("|")

# A script whose calls come back to their start without an end.
ROOM = """lines = ["a", "b"]
contexts = ["room"]
start = "idle"
restart = "quiet"
events = [{ name = "hang", list = ["al/on=state"] }]
[[state]]
name = "idle"
on.a.of = "talk"
[[state]]
name = "talk"
do = ["add $room a mode=SendReceive events=hang", "add room b mode=SendReceive"]
talk = ["a-b"]
fault = "quiet"
on.a.on = "quiet"
[[state]]
name = "quiet"
do = ["subtract room *", "modify - a events=armed", "modify - b events=armed"]
talk = ["a-b"]
ok = "idle"
fault = "quiet"
"""
HEAVY_HEAD = """lines = ["a", "b", "g", "h"]
contexts = ["c", "d"]
ephemerals = ["e", "f"]
start = "idle"
restart = "wipe"
[[events]]
name = "hang"
list = ["al/on=state"]
[[events]]
name = "flash"
list = ["al/on=state", "al/fl"]
[[events]]
name = "lift"
list = ["al/of=state"]
[[signals]]
name = "tone"
list = ["cg/rt"]
[[state]]
name = "idle"
on.a.of = "make"
"""
# Two contexts with two lines and an ephemeral each, whose Remotes name each other.
MAKE = (
    "add $c a mode=SendReceive events=hang signals=tone|add c g mode=SendReceive|topology c a g isolate|add c $e mode=SendReceive|topology c a e oneway|"
    "add $d b mode=Inactive|add d h mode=SendReceive|topology d b h oneway|add d $f mode=SendReceive remote=e|topology d b f isolate|modify c e remote=f|"
    "modify d b mode=SendReceive events=lift|modify c a events=flash signals=none|topology c a g bothway|topology d b h bothway|modify d h events=lift"
).split("|")
WIPE = "modify c e remote=none|modify d f remote=none|subtract c *|subtract d *".split("|")


def changed(mode, topology, events, signals):
    """Sixteen commands that change all that is set in two contexts; line a is the one whose events are taken."""
    each = []
    for context, first, second, ephemeral, other in (("c", "a", "g", "e", "f"), ("d", "b", "h", "f", "e")):
        each += [f"topology {context} {one} {two} {topology}" for one, two in ((first, second), (first, ephemeral), (second, ephemeral))]
        each += [f"modify {context} {first} mode={mode} events={events if first == 'a' else 'lift'}", f"modify {context} {first} signals={signals}"]
        each += [f"modify {context} {second} mode={mode}", f"modify {context} {second} events=lift signals={signals}"]
        each.append(f"modify {context} {ephemeral} mode={mode} remote={other}")
    return each


def state(name, commands, **targets):
    """A state of a heavy script, in which all lines may talk."""
    lines = ["[[state]]", f'name = "{name}"', "do = [" + ", ".join(f'"{command}"' for command in commands) + "]"]
    lines.append('talk = ["a-b", "a-g", "a-h", "b-g", "b-h", "g-h"]')
    return "\n".join([*lines, *(f'{key.replace("_", ".")} = "{target}"' for key, target in targets.items())]) + "\n"


def heavy():
    """A script whose requests have sixteen commands, and eight where all is taken back."""
    armed = [f"modify - {line} events=armed signals=none" for line in "abgh"]
    return "".join((
        HEAVY_HEAD,
        state("make", MAKE, fault="wipe", timer="one", on_a_on="wipe"),
        state("one", changed("SendReceive", "bothway", "hang", "none"), fault="one", timer="other", on_a_on="wipe"),
        state("other", changed("SendOnly", "isolate", "flash", "tone"), fault="other", timer="one", on_a_on="wipe"),
        state("wipe", [*WIPE, *armed], ok="idle", fault="wipe"),
    ))


def stored(name):
    """The head of an example."""
    folder = EXAMPLES / name
    return (folder / "script.toml").read_text() + "%%\n" + (folder / "certificate.json").read_text()


def made(text):
    return f"{text}%%\n{walked.certificate(text)}"


def kinds():
    """An input of each kind: short calls of two examples, long calls, calls that begin again on their lines, and requests of many commands."""
    watched = [*LIFTED, *LAID, "pass"]
    yield Kind("watch", stored("watch"), 2, watched), 4_000
    yield Kind("basic", stored("basic"), 2, [*LIFTED, *LAID, "execute", "reply", "pass"]), 4_000
    yield Kind("long", made(ROOM), 2, watched * 110), 40
    yield Kind("begun", stored("watch"), 2, watched + ["begin", *watched] * 9), 400
    yield Kind("heavy", made(heavy()), 4, [*LIFTED, *TIMED * 4, *LAID, "pass"] * 4), 400


def plan(kind, calls, shards=1):
    """An input of a run of so many calls, and its events."""
    listed = ", ".join(f'"{step}"' for step in kind.steps)
    lines = ([kind.lines * call + place + 1 for place in range(kind.lines)] for call in range(calls))
    text = "".join(f"[[call]]\nlines = {of_call}\nepochs = [[{listed}]]\n" for of_call in lines)
    return f"{kind.head}%%\nshards = {shards}\n{text}", calls * len(kind.steps)
