"""What is said of a run: under each line of its report a sentence on each step of its call, with the messages, what plays and who hears whom, from what
`mgexplain` tells.
Nothing is decided here. It is installed too, so it knows nothing of this repository."""
import itertools

UNKNOWN = "The plan has no call {call}: it has {calls}, which are numbered from 0."
DISAGREE = "What its steps came to isn't told, since they and its history disagree."
# What is no step of the call with which it is told.
BETWEEN = {
    "restart": "all gateways restart",
    "end of an epoch": "all calls have ended this epoch, and all gateways restart",
    "restart of another call": "a restart step of another call comes, and all gateways restart",
}
# What happens, by the first word of the step: on a line, and to the call alone.
ON_LINE = {
    "off": "line {line} goes off hook",
    "on": "line {line} goes on hook",
    "flash": "the hook of line {line} is flashed",
    "digit": "{more} is dialled on line {line}",
    "pause": "the timer of the digit map of line {line} ends",
    "end": "{more} ends on line {line}",
}
TO_CALL = {
    "pass": "the call goes on from state {state}, whose request is empty",
    "timer": "the timer of state {state} ends",
    "hear": "the call hears of the association of its gateway, and enters the state for a restart",
    "begin": "the call begins on the lines of the one before it, which is retired",
}
# Why a step is idle: by the reason, and by the first word of the step where that says more; under `None` for all other steps. What a reason names stands in it.
IDLE = {
    "no_note_waits": {None: "no note of its association waits for the call"},
    "waits": {
        "note": "the call waits, and takes a note only at rest",
        "timer": "the call waits, and its timer ends only at rest",
        None: "the call waits, and another begins only where it has ended",
    },
    "rests": {
        "reply": "the call rests, and waits for no reply",
        "pass": "the call rests, and has no empty request to go on from",
        None: "the call rests in a state that is no end, and another begins only where it has ended",
    },
    "has_ended": {
        "reply": "the call has ended, and waits for no reply",
        "pass": "the call has ended, and has no empty request to go on from",
        "timer": "the call has ended, and an end has no timer",
        None: "the call has ended, and takes no note",
    },
    "lost": {None: "the call is of association {call_association}, and its gateway of {gateway_association}, so that no other begins on its lines"},
    "not_new": {None: "note {note_number} reached the call before"},
    "other_association": {None: "note {note_number} is of another association than the call"},
    "no_timer": {None: "the state has no timer"},
    "nothing_to_hear": {None: "the call is in the association of its gateway already"},
    "not_begun": {None: "the gateway hasn't begun association {association}"},
    "not_of_call": {None: "the call doesn't hold line {on_line}"},
    "not_on_line": {
        "off": "line {on_line} is off hook already",
        "on": "line {on_line} is on hook already",
        "flash": "line {on_line} is on hook, and only one that is off hook is flashed",
        "digit": "line {on_line} is on hook, and only one that is off hook dials",
        "pause": "no digit map of line {on_line} is collecting symbols",
        None: "that signal doesn't play on line {on_line}",
    },
    "not_released": {None: "a line of the call isn't released, or an ephemeral stands that it created"},
    "numbers_end": {None: "no number is left for more {which}"},
}
# What a call waits for and what came instead, by whether the one and the other are replies.
NOT_AWAITED = {
    (True, True): "the call waits for the reply to request {expected}, and one to request {came} came",
    (True, False): "the call waits for the reply to request {expected}",
    (False, True): "the call waits for its pass, and a reply to request {came} came",
}
# Which message wasn't sent, by the first word of the step and whether it has a number.
UNSENT = {
    ("execute", False): "the call has sent no request",
    ("execute", True): "the call has sent no request with this number",
    ("reply", False): "the gateway has sent the call no reply",
    ("reply", True): "the gateway has sent no reply to a request with this number",
    ("note", True): "the gateway has sent the call no note with this number",
}


def idle(step):
    """Why a step is idle."""
    word, *more = step["step"].split()
    named = step.get("named", {})
    if step["reason"] == "nothing_sent":
        return UNSENT[word, bool(more) and more[0].isdigit()]
    if step["reason"] == "not_awaited":
        return NOT_AWAITED["expected" in named, "came" in named].format(**named)
    of_reason = IDLE[step["reason"]]
    return of_reason.get(word, of_reason[None]).format(**named)


def refused(told):
    """What is said of a command that was refused."""
    return f"the command at place {told['command_place']} is refused with {told['code']} {told['code_name']}"


def executed(told):
    """What a request came to that reached the gateway."""
    reaches = f"request {told['request_number']} reaches the gateway"
    if told["fate"] == "repeated":
        return f"{reaches} once more, which sends its reply again"
    if told["fate"] == "discarded":
        return f"{reaches}, which drops it: it is of another association, or older than the last one done"
    return f"{reaches}, where {refused(told['refused'])}" if "refused" in told else f"{reaches}, which does all of it"


def note(told):
    """A note in words."""
    dialled = f" of {told['symbols']} ({told['method']})" if "method" in told else ""
    return f"note {told['note_number']} of line {told['on_line']}: {told['note_kind']}{dialled}, RequestID {told['raised_by']}"


def happened(step):
    """What happened at a step."""
    if "executed" in step:
        return executed(step["executed"])
    if "reply" in step:
        told = step["reply"]
        return f"the reply to request {told['request_number']} reaches the call: {refused(told['refused']) if 'refused' in told else 'all is done'}"
    if "note" in step:
        return f"{note(step['note'])} reaches the call"
    word, *more = step["step"].split()
    if word in TO_CALL:
        return TO_CALL[word].format(state=step["before"]["state"])
    return ON_LINE[word].format(line=more[0], more=more[-1])


def says(step):
    """What happened at a step, or why it is idle, in a sentence."""
    if step["came"] == "idle":
        return idle(step)
    return BETWEEN.get(step["came"]) or happened(step)


def place(told):
    """Where a call is."""
    return f"{told['state']} {told['phase']}"


def commands(told):
    """The lines on the commands of a request."""
    return [f"      {each['command_place']}  {each['command']}    <- {each['mark']}" for each in told["request"]]


def plays(step, before):
    """The lines on what plays, where that is other than before."""
    if step["plays"] == before["plays"]:
        return []
    return [f"    plays now on line {each['on_line']} {' '.join(each['signals'])}" for each in step["plays"]] or ["    nothing plays any more"]


def hears(step, before):
    """The line on who hears whom, where that is other than before."""
    if step["hears"] == before["hears"]:
        return []
    told = ", ".join(f"{one['to']} hears {one['from']}" for one in step["hears"])
    return [f"    now {told}" if told else "    nobody hears anybody any more"]


def head(step):
    """The line on what a step is, and where the call is before it and behind it."""
    named = f"step {step['step_place']}, {step['step']}" if "step_place" in step else step["came"]
    if step["came"] == "idle":
        return f"  {named}: IDLE in {place(step['before'])}"
    return f"  {named}: {place(step['before'])} -> {place(step['after'])}"


def lines_of(step, before):
    """The lines on a step, by what played and who heard whom before it."""
    yield head(step)
    yield f"    {says(step)}"
    if "executed" in step:
        yield from commands(step["executed"])
    yield from (f"    the gateway sends {note(told)}" for told in step["notes"])
    if "sent" in step:
        yield f"    the call sends request {step['sent']['request_number']}, of state {step['sent']['state']}:"
        yield from commands(step["sent"])
    yield from plays(step, before)
    yield from hears(step, before)


def of_call(lines):
    """The paragraphs on a call of the plan and those that began within it, by their lines of the report."""
    before = {"plays": [], "hears": []}
    for line in lines:
        said = [line["line"]]
        for step in line["steps"]:
            said += lines_of(step, before)
            before = step
        yield said


def untold(page):
    """Why no steps are told, in a paragraph of its own where that is so."""
    if "untold" not in page:
        return []
    told = page["untold"]
    return [[DISAGREE if told["because"] == "steps_disagree" else UNKNOWN.format(call=told["call"], calls=told["calls"])]]


def paragraphs(page):
    """What is said of a run, paragraph by paragraph, each a list of lines: the report, and then each call with its steps."""
    if page["report"]:
        yield [line["line"] for line in page["report"]]
    told = [line for line in page["report"] if "steps" in line]
    for _, lines in itertools.groupby(told, lambda line: line["call"]):
        yield from of_call(lines)
    yield from untold(page)
