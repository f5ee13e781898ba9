"""What `mgexplain` tells of runs, for `tools/gate/explain`: for each stored run and each plan of gallery/ and examples/ its first lines and its status are
those of `mgcall run --workers 1`; the steps of each call of the plan are told once and in order; events and idle steps, counted anew from what is told, are
those of the lines; each number that a call knows was given by a reply; what is told of one call is what is told of it among all; and the ladder stands
under the same lines; and who hears whom is as the rules have it, one way too. The rows below are reasoned by hand."""
import json
import tomllib
from pathlib import Path

from gate import told_words
from gate.told_words import asked
from shared import explained, run_words

TOP = Path(__file__).resolve().parents[2]
RUNS = TOP / "tests" / "runs"
FORMAT = 2
IN_WORDS = "In words: mgcall-why, or tools/why of the sources.\n"
DIVIDER = b"%%\n"
FILES = ("script.toml", "certificate.json", "plan.toml")
# What is told beside the steps of a call: no step of it, and the step that another call has.
BESIDE = ("end of an epoch", "restart of another call")
# What the reasons name that name something, each in one of these ways.
NAMES = {
    "lost": ({"call_association", "gateway_association"},),
    "not_awaited": ({"expected", "came"}, {"expected"}, {"came"}),
    "not_new": ({"note_number"},),
    "other_association": ({"note_number"},),
    "not_begun": ({"association"},),
    "not_of_call": ({"on_line"},),
    "not_on_line": ({"on_line"},),
    "numbers_end": ({"which"},),
}
# Steps of a call of an example on one gateway with nobody else, with what each comes to: an event, a restart, or the reason for which it is idle; the lines of
# the report; and what is said of each idle step. In the first row the note of the first step is lost, so that the call never leaves its first state; in the
# second it comes late; in the third it comes again, to a call at rest; in the fourth an older association sent it; and in the last a reply of an older
# association comes.
ROWS = (
    (
        "the note is lost",
        "watch",
        "off a=event execute=nothing_sent reply=nothing_sent pass=rests timer=no_timer off a=not_on_line on a=event note 2=nothing_sent "
        "hear=nothing_to_hear begin=rests end a cg/bt=not_on_line flash a=not_on_line digit a 5=not_on_line pause a=not_on_line",
        ("call 0 idle resting events=2 idle=12",),
        (
            "the call has sent no request",
            "the gateway has sent the call no reply",
            "the call rests, and has no empty request to go on from",
            "the state has no timer",
            "line a is off hook already",
            "the gateway has sent the call no note with this number",
            "the call is in the association of its gateway already",
            "the call rests in a state that is no end, and another begins only where it has ended",
            "that signal doesn't play on line a",
            "line a is on hook, and only one that is off hook is flashed",
            "line a is on hook, and only one that is off hook dials",
            "no digit map of line a is collecting symbols",
        ),
    ),
    (
        "the note comes late",
        "watch",
        "off a=event note 1=event execute 2=nothing_sent note=no_note_waits note 1=waits timer=waits begin=waits pass=not_awaited "
        "execute refuse 0=event reply=event reply 1=not_awaited reply=not_awaited execute=event reply=event pass=event reply=has_ended note 1=has_ended "
        "timer=has_ended pass=has_ended restart=restart begin=lost hear=event execute=event reply=event pass=event begin=event note=no_note_waits",
        ("call 0 done retired events=11 idle=13", "call 0.1 idle resting events=1 idle=1"),
        (
            "the call has sent no request with this number",
            "no note of its association waits for the call",
            "the call waits, and takes a note only at rest",
            "the call waits, and its timer ends only at rest",
            "the call waits, and another begins only where it has ended",
            "the call waits for the reply to request 1",
            "the call waits for the reply to request 2, and one to request 1 came",
            "the call waits for the reply to request 2, and one to request 1 came",
            "the call has ended, and waits for no reply",
            "the call has ended, and takes no note",
            "the call has ended, and an end has no timer",
            "the call has ended, and has no empty request to go on from",
            "the call is of association 1, and its gateway of 2, so that no other begins on its lines",
            "no note of its association waits for the call",
        ),
    ),
    (
        "the note comes again",
        "talks",
        "off a=event note 1=event note 1=waits execute=event reply=event note 1=not_new pass=rests timer=no_timer",
        ("call 0 talk resting events=4 idle=4",),
        (
            "the call waits, and takes a note only at rest",
            "note 1 reached the call before",
            "the call rests, and has no empty request to go on from",
            "the state has no timer",
        ),
    ),
    (
        "the note is of an older association",
        "talks",
        "off a=event restart=restart hear=event execute=nothing_sent note 1=waits pass=event note 1=other_association note=no_note_waits "
        "hear=nothing_to_hear flash b=not_on_line off b=event on b=event",
        ("call 0 idle resting events=5 idle=6",),
        (
            "the call has sent no request",
            "the call waits, and takes a note only at rest",
            "note 1 is of another association than the call",
            "no note of its association waits for the call",
            "the call is in the association of its gateway already",
            "line b is on hook, and only one that is off hook is flashed",
        ),
    ),
    (
        "the reply is of an older association",
        "talks",
        "off a=event note=event execute=event reply=event restart=restart begin=rests hear=event reply=not_awaited reply 1=not_awaited pass=event "
        "note 1=not_new",
        ("call 0 idle resting events=6 idle=4",),
        (
            "the call rests in a state that is no end, and another begins only where it has ended",
            "the call waits for its pass, and a reply to request 1 came",
            "the call waits for its pass, and a reply to request 1 came",
            "note 1 reached the call before",
        ),
    ),
)
# Who hears whom behind each step of a stored run, as pairs of who is heard and who hears, by docs/believe/MODEL.md. Line a is ReceiveOnly and b SendOnly, so
# media go from a to b alone; then both are SendReceive, and `oneway` of (b, a) leaves those from b to a; then they go both ways; then no line is in a context.
HEARS = {"one_way": ("", "", "ab", "ab", "ab", "ba", "ba", "ba", "ab ba", "ab ba", "ab ba", "", "", "")}


def ended(text):
    return text if text.endswith(b"\n") else text + b"\n"


def given(folder):
    """The script, the certificate and the plan of a folder as an input."""
    return DIVIDER.join(ended((folder / name).read_bytes()) for name in FILES)


def inputs():
    """Each stored run and each plan, by name."""
    for path in sorted(RUNS.glob("*.in")):
        yield path.stem, path.read_bytes()
    for top in ("gallery", "examples"):
        for path in sorted((TOP / top).rglob("plan.toml")):
            yield str(path.parent.relative_to(TOP)), given(path.parent)


def plan_of(data):
    """The calls of the plan of an input, each a list of epochs, in the words of the file."""
    text = data.replace(b"\r\n", b"\n").split(b"\n%%\n", 2)[2].decode("utf-8-sig")
    return [call["epochs"] for call in tomllib.loads(text).get("call", [])]


def of_call(report, number):
    """The steps that are told of a call of the plan and of those that began within it."""
    return [step for line in report if line["call"] == number for step in line["steps"]]


def counted(line):
    """What is wrong with what is told under a line."""
    came = [step["came"] for step in line["steps"]]
    if (came.count("event"), came.count("idle")) != (line["events"], line["idle"]):
        yield f"{line['line']}: {came.count('event')} events and {came.count('idle')} idle steps are told"
    number = str(line["call"]) + (f".{line['begun']}" if line["begun"] else "")
    if line["line"] != f"call {number} {line['state']} {line['phase']} events={line['events']} idle={line['idle']}":
        yield f"another line: {line['line']}"
    for step in line["steps"]:
        if ("reason" in step) != (step["came"] == "idle") or step["came"] == "idle" and step["before"] != step["after"]:
            yield f"{line['line']}: {step}"
        if {*step.get("named", {})} not in NAMES.get(step.get("reason"), ({*()},)):
            yield f"{line['line']}: other names in {step}"
        if ("step_place" in step) == (step["came"] in BESIDE):
            yield f"{line['line']}: a place in {step}"


def in_order(calls, report):
    """What is wrong with the order of what is told: each call has its own steps in theirs, the end of an epoch between two, and one restart for each that
    another call asks for."""
    epochs = max((len(call) for call in calls), default=0)
    asked_for = [sum(step == "restart" for epoch in call for step in epoch) for call in calls]
    for number, call in enumerate(calls):
        told = of_call(report, number)
        own = [step for step in told if step["came"] not in BESIDE]
        if [step["step"] for step in own] != [step for epoch in call for step in epoch]:
            yield f"call {number}: other steps"
        if [step["step_place"] for step in own] != [*range(len(own))]:
            yield f"call {number}: other places"
        came = [step["came"] for step in told]
        if (came.count(BESIDE[0]), came.count(BESIDE[1])) != (max(epochs - 1, 0), sum(asked_for) - asked_for[number]):
            yield f"call {number}: other restarts"


def leads_on(report, number):
    """What is wrong with where a call is from step to step: each begins where the one before it ended, or where another call begins or the gateway "
    "restarts."""
    at = None
    for step in of_call(report, number):
        if at not in (None, step["before"]):
            yield f"call {number}: {step['step']} begins in {step['before']}, behind {at}"
        at = step["after"]


def replied(executed):
    """What is wrong with what a reply says of commands: it tells each that was done, the number of each context but the null one, and what was created."""
    told, request = executed.get("results", []), executed["request"]
    done = 0 if executed["fate"] == "discarded" else executed.get("refused", {"command_place": len(request)})["command_place"]
    if [result["command_place"] for result in told] != [*range(done)]:
        yield f"results of other commands: {executed}"
    for result, one in zip(told, request):
        _, context, *terminations = one["command"].split()
        if ("context" in result) == (context == "-") or ("created" in result) != terminations[0].startswith("$"):
            yield f"another result of {one['command']}: {result}"


def give(given, executed):
    """Adds what a reply gives to the names that its commands create, which have a `$` before them: first that of a context, then that of an ephemeral."""
    for result in executed.get("results", []):
        words = executed["request"][result["command_place"]]["command"].split()
        for word, key in zip(words[1:], ("context", "created")):
            if word.startswith("$"):
                given.setdefault(word.removeprefix("$"), set()).add(result.get(key))


def numbers(line):
    """What is wrong with the numbers under a line: a reply gave to its name each that the call knows as it builds a request."""
    given = {}
    for step in line["steps"]:
        for told in (step.get("executed", {}), step.get("sent", {})):
            for one in told.get("contexts", []) + told.get("ephemerals", []):
                if one["number"] not in given.get(one["name"], ()):
                    yield f"{line['line']}: no reply gave {one}"
        if "executed" in step:
            yield from replied(step["executed"])
            give(given, step["executed"])


def strings(value):
    """What the text has of a JSON value of steps, as it has it."""
    for step in value:
        yield run_words.says(step)
        for part in ("executed", "sent"):
            yield from (each["command"] for each in step.get(part, {}).get("request", []))


def wrongs(programs, data, refused):
    """All that is wrong with what is said of a run."""
    mgcall, mgexplain = programs
    status, output = asked(mgcall, data, "run", "--workers", "1")
    text_status, text = asked(mgexplain, data)
    if (text_status, text) != (status, output + IN_WORDS):
        yield f"{text_status} {text[:80]!r}"
    json_status, page = told_words.facts(mgexplain, data)
    yield from (f"the schema: {error.message}" for error in refused(page))
    if json_status != status or page["format"] != FORMAT or page["status"] != status:
        yield f"status {json_status} with --json"
    if status:
        if page["line"] != output.rstrip("\n"):
            yield "another line"
        return
    report, text = page["report"], told_words.view(page, data)
    if not text.startswith(output) or output and text == output:
        yield f"words that don't stand under the report: {text[:80]!r}"
    if "".join(f"{line['line']}\n" for line in report) != output or "".join(f"{line}\n" for line in page["lines"]) != output:
        yield "another report"
    for line in report:
        yield from counted(line)
        yield from numbers(line)
        yield from (f"not in the text: {each}" for each in strings(line["steps"]) if each not in text)
    calls = plan_of(data)
    yield from in_order(calls, report)
    for number in range(len(calls)):
        yield from leads_on(report, number)
    if not told_words.view(page, data, explained.LADDER).startswith(output):
        yield "no ladder"
    yield from of_one(mgexplain, data, report, len(calls))


def of_one(mgexplain, data, report, count):
    """What is wrong with what is said of one call: the last one, and one that the plan doesn't have."""
    for number in {max(count - 1, 0), count}:
        page = told_words.facts(mgexplain, data, "--call", str(number))[1]
        alone = [{key: value for key, value in line.items() if key != "steps" or line["call"] == number} for line in report]
        if page["report"] != alone or page["lines"] != [line["line"] for line in report] or ("untold" in page) != (number >= count):
            yield f"another call {number}"


def words_of(row):
    """The steps of a row, and what each comes to."""
    steps = [one.strip() for one in row.replace("=", "\0").split("\0")]
    words, wanted = [steps[0]], []
    for each in steps[1:]:
        came, _, step = each.partition(" ")
        wanted.append(came)
        words += [step] if step else []
    return words, wanted


def by_hand(mgexplain):
    """The rows, each with what is wrong with what is said of it."""
    for name, example, row, lines, sentences in ROWS:
        folder = TOP / "examples" / example
        words, wanted = words_of(row)
        plan = f"[[call]]\nlines = [1, 2]\nepochs = [{json.dumps(words)}]\n"
        data = DIVIDER.join([*(ended((folder / part).read_bytes()) for part in FILES[:2]), plan.encode()])
        status, page = told_words.facts(mgexplain, data)
        report = page["report"]
        steps = [step for line in report for step in line["steps"]]
        told = [step.get("reason", step["came"]) for step in steps]
        said = [run_words.says(step) for step in steps if step["came"] == "idle"]
        right = status == 0 and told == wanted and tuple(line["line"] for line in report) == lines and tuple(said) == sentences
        yield name, [] if right else [f"{told}, {[line['line'] for line in report]}, {said}"]


def heard(mgexplain):
    """The stored runs of which it is told here who hears whom, each with what is wrong with what is said of that."""
    for name, wanted in HEARS.items():
        page = told_words.facts(mgexplain, (RUNS / f"{name}.in").read_bytes())[1]
        found = [" ".join(sorted(one["from"] + one["to"] for one in step["hears"])) for line in page["report"] for step in line["steps"]]
        yield f"who hears whom in {name}", [] if found == [*wanted] else [f"{found} in place of {[*wanted]}"]


def words_are_refused(mgexplain):
    """Whether words that ask of a run what it doesn't have, or of no run, are answered by the line on the words."""
    watch = given(TOP / "examples" / "watch")
    pair = watch.rpartition(DIVIDER)[0]
    for data, words in ((watch, ["--strict"]), (pair, ["--call", "0"]), (pair, ["--json", "--call", "0"]), (watch, ["--call", "00"])):
        status, said = asked(mgexplain, data, *words)
        yield f"words {' '.join(words)}", [] if status == 2 and "usage: mgexplain" in said else [said[:80]]


def judged(pool, programs, refused):
    """All that is tried, each with what is wrong with it."""
    yield from pool.map(lambda row: (row[0], [*wrongs(programs, row[1], refused)]), [*inputs()])
    yield from by_hand(programs[1])
    yield from heard(programs[1])
    yield from words_are_refused(programs[1])
