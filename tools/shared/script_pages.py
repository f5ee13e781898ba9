"""A page for a script, its certificate and perhaps a plan: what `mgexplain` tells of them, and what is said of that, as values that a template lays out.
The template is of Jinja2, the machine is drawn by Graphviz. A page names its sources with their checksums, and has its name once it is whole. It is
installed too, so it knows nothing of this repository."""
import hashlib
import json
import re
import shutil
import subprocess
from collections import namedtuple
from pathlib import Path

from shared import (
    arguments, asking, certificates, check_words, coverage_cells, explained, ladders, marked_pictures, messages, pictures, run_words, scripts, warning_words,
)

try:
    import jinja2
except ImportError:
    jinja2 = None

TARGET = "-o"
USAGE = f"SCRIPT CERTIFICATE [PLAN] {TARGET} FILE [--quiet]"
FORM = arguments.Form(2, 3, (TARGET,))
TEMPLATE = Path(__file__).with_name("script_page.html")
# The statuses with which there is a page.
YES, NO = 0, 1
# What is asked for: the names of the files, and that of the page.
Wanted = namedtuple("Wanted", "names target")
# What `mgexplain` tells of a script and its certificate, with the status, and what is said of it.
Verdict = namedtuple("Verdict", "status page words")
# A state as the page has it: its name, whether it is an end, its pairs, its commands, its ways out, and its entries.
State = namedtuple("State", "name is_end talk commands ways entries")
# An entry: its place, its link, its rows of lines and of ephemerals, its contexts and its cuts, and the number of the point that a No names, None where none.
Entry = namedtuple("Entry", "place link lines ephemerals contexts cuts point")
# A step: what `mgexplain` tells of it, what is said of that, the messages that end at it, and those that are sent at it, each with its number.
Step = namedtuple("Step", "told says ended sent")
# A call of the report: its line, its ladder, and its steps.
Told = namedtuple("Told", "line ladder steps")
# How Graphviz is called: no background, and each state leads to its part of the page.
DOT = ("dot", "-Tsvg", "-Gbgcolor=transparent", "-Nfontname=Helvetica", "-Nfontsize=12", "-Efontname=Helvetica", "-Efontsize=10", "-Gfontname=Helvetica")


def wanted(given, usage):
    """What the words of a tool ask for."""
    names, options = arguments.read(FORM, given, usage)
    if TARGET not in options:
        asking.stop(f"usage: {usage}", asking.WORDS)
    return Wanted(names, options[TARGET])


def can_draw():
    """Ends the tool where what pages are made with isn't there."""
    scripts.can_read()
    if jinja2 is None:
        asking.stop("a page is made with Jinja2, the package python3-jinja2, which isn't there", asking.NO_PROGRAM)
    if shutil.which(DOT[0]) is None:
        asking.stop("a page is made with Graphviz, the package graphviz, which isn't there", asking.NO_PROGRAM)


def svg(text):
    """The drawing of a text for Graphviz, as a part of a page."""
    linked = re.sub(r'^(  "(\w+)" \[)', r'\1URL="#state-\2", ', text, flags=re.MULTILINE)
    drawing = subprocess.run(DOT, input=linked, stdout=subprocess.PIPE, text=True, encoding="utf-8", check=True).stdout
    return re.sub(r"<!--.*?-->\n?", "", drawing[drawing.index("<svg") :], flags=re.DOTALL)


def verdict_of(program, texts):
    """What `mgexplain` tells of a script and its certificate."""
    status, page = explained.told(program, [], texts)
    return Verdict(status, page or {}, explained.view(None, page, texts) if page else "")


def joined(values):
    """The values of a component of an entry in one cell."""
    return ", ".join(values)


def rows(values, kind, names, keys):
    """The rows of the lines or the ephemerals of an entry: a name, and what it has of each key."""
    return [(name, [joined(values[f"{kind}.{name}.{key}"]) for key in keys]) for name in names]


def entry_of(script, place, entry, point):
    """An entry of the certificate as the page has it; what isn't cut is left out."""
    values = certificates.sets(script, entry)
    cuts = [(path.removeprefix("cuts."), joined(values[path])) for path in values if path.startswith("cuts.") and values[path] != ["no"]]
    return Entry(
        place,
        joined(values["link"]),
        rows(values, "lines", script["lines"], ("at", "mode", "events", "plays")),
        rows(values, "ephemerals", script.get("ephemerals", []), ("at", "mode", "remote")),
        [(name, joined(values[f"contexts.{name}"])) for name in script.get("contexts", [])],
        cuts,
        point.get("point_number") if point.get("entry_place") == place else None,
    )


def states_of(script, entries, point):
    """The states of a script with their entries."""
    found = {}
    for place, entry in enumerate(entries):
        found.setdefault(entry["state"], []).append(entry_of(script, place, entry, point))
    for state in script["state"]:
        name, ways = state["name"], [*pictures.ways_out(state, script["lines"])]
        yield State(name, state.get("end", False), state.get("talk", []), state.get("do", []), ways, found.get(name, []))


def by_step(sent, key):
    """Messages with their numbers by the place of a step, as this key has it."""
    found = {}
    for number, message in sent:
        found.setdefault(getattr(message, key), []).append((number, message))
    return found


def drawn_calls(page, texts, of_call):
    """The ladder of each call of a run; an arrow leads to the message that comes to its end there."""
    told = [of_call.get(messages.call_of(line), []) for line in page["report"] if "steps" in line]
    links = [{message.ended: number for number, message in own if message.ended is not None} for own in told]
    return ladders.drawn_apart(page, scripts.read(texts[0])["lines"], links)


def told_calls(page, texts):
    """The calls of a run with their ladders and their steps, and the messages that are sent and that end at each."""
    of_call = messages.by_call(messages.of_run(page, texts))
    for line, ladder in zip(page["report"], drawn_calls(page, texts, of_call)):
        own = of_call.get(messages.call_of(line), [])
        ended, sent = by_step(own, "ended"), by_step(own, "sent")
        steps = [Step(step, run_words.says(step), ended.get(place, []), sent.get(place, [])) for place, step in enumerate(line["steps"])]
        yield Told(line["line"], ladder, steps)


def heading(text):
    """The comment with which a script begins, as one text; an empty one where it has none."""
    lines = []
    for line in text.decode("utf-8-sig").splitlines():
        if not line.startswith("#"):
            break
        lines.append(line.lstrip("# ").strip())
    return " ".join(lines)


def sources(names, texts):
    """The sources of a page: each with its name, without folders, and its checksum."""
    return [(Path(name).name, hashlib.sha256(text).hexdigest()) for name, text in zip(names, texts)]


def laid_out(names, texts, verdict, run):
    """The text of the page."""
    script, entries = scripts.read(texts[0]), json.loads(texts[1])["entries"]
    environment = jinja2.Environment(autoescape=True, trim_blocks=True, lstrip_blocks=True, undefined=jinja2.StrictUndefined, keep_trailing_newline=True)
    return environment.from_string(TEMPLATE.read_text(encoding="utf-8")).render(
        heading=heading(texts[0]),
        verdict=verdict,
        rule=check_words.rule(verdict.page),
        warned=warning_words.heading(verdict.page),
        warnings=[(told, warning_words.warned(told, verdict.page, script)) for told in verdict.page.get("warnings", [])],
        words=verdict.words.partition("\n")[2].strip("\n"),
        coverage=[*coverage_cells.rows(verdict.page, script)],
        has_telephones=coverage_cells.has_telephones(verdict.page),
        machine=svg("\n".join(marked_pictures.lines(verdict.page, texts))),
        script=script,
        states=[*states_of(script, entries, verdict.page.get("point", {}))],
        calls=[*told_calls(run, texts)] if run else [],
        sources=sources(names, texts),
    )


def written(asked, find):
    """Writes the page that is asked for, with the program that `find` finds; gives the status."""
    return made(asked, asking.read(asked.names), find)


def made(asked, texts, find):
    """The same of files that were read."""
    can_draw()
    program = find("mgexplain")
    verdict, run = verdict_of(program, texts[:2]), {}
    status, said = verdict.status, verdict.words
    if status == YES and len(texts) > 2:
        status, run = explained.told(program, [], texts)
        said = explained.view(None, run, texts) if status and run else ""
    if status not in (YES, NO):
        print(said, end="")
        return status
    scripts.look(asked.names[::2], texts[::2])
    page = laid_out(asked.names, texts, verdict, run)
    with asking.written(asked.target) as file:
        file.write(page)
    if status == NO:
        print(verdict.page["line"])
    return status
