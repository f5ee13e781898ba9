"""The ladder of a call as rows, in the order in which things happen: what is done at a telephone, each message between the call and its gateway where it comes
to its end, and what the call does by itself. It is installed too, so it knows nothing of this repository."""
from collections import namedtuple

from shared import request_words, run_words
from shared.request_words import FAINT, REFUSED, Piece

# What a row is: a message to the gateway or to the call, one that is sent and comes later or to no end, what is done at a telephone, what the call does by
# itself, a restart of all gateways, and a step that couldn't happen.
REQUEST, ANSWER, SENT, LOST, LINE, CALL, RESTART, IDLE = "request", "answer", "sent", "lost", "line", "call", "restart", "idle"
# A row: the place of its step among those that are told, what it is, where it stands (the name of a line, `call` or `gateway`), its pieces, where the call is
# then (None where it can't be elsewhere than before), and all that is said of it.
Row = namedtuple("Row", "step kind at pieces place says", defaults=(None, ""))
AT_CALL, AT_GATEWAY = "call", "gateway"
# What is done at a telephone, by the first word of a step, and what a note tells of it, by its kind.
DONE = {"off": "lifts", "on": "hangs up", "flash": "flash", "digit": "{}", "pause": "pause", "end": "{} ends"}
NOTES = {"of": "lifts", "on": "hangs up", "fl": "flashes", "full": "dialled {}", "part": "dialled {}, no number"}
BY_ITSELF = {"timer": "timer", "pass": "goes on", "hear": "hears of the restart", "begin": "begins"}
RESTARTS = {
    "restart": "all gateways restart",
    "end of an epoch": "end of an epoch: all gateways restart",
    "restart of another call": "of another call: all gateways restart",
}
TONES = {"al/ri": "ring", "cg/dt": "dial tone", "cg/rt": "ringing tone", "cg/bt": "busy tone", "cg/ct": "congestion tone"}


def note(told):
    """A note in few words."""
    return f"{told['on_line']} {NOTES[told['note_kind']].format(told.get('symbols') or 'nothing')}"


def is_end(step, key, number):
    """Whether the message with this number comes to its end at a step."""
    name = {"executed": "request_number", "reply": "request_number", "note": "note_number"}[key]
    return key in step and step[key][name] == number


def executed(told):
    """The pieces of a request that comes to the gateway."""
    if told["fate"] == "executed":
        return [*request_words.pieces(told)]
    return [Piece("the same once more" if told["fate"] == "repeated" else f"dropped: {request_words.brief(told['request'])}", FAINT)]


def answer(told):
    """The pieces of a reply."""
    return [Piece(request_words.refusal(told["refused"]), REFUSED)] if "refused" in told else [Piece("done")]


def ending(place, step):
    """The row of what happens at a step."""
    says, after = run_words.says(step), (step["after"]["state"], step["after"]["phase"])
    word, *more = step["step"].split()
    if step["came"] == "idle":
        return Row(place, IDLE, AT_CALL, [Piece(f"idle: {step['step']}, {step['reason'].replace('_', ' ')}", FAINT)], None, says)
    if step["came"] != "event":
        return Row(place, RESTART, AT_GATEWAY, [Piece(RESTARTS[step["came"]], REFUSED)], after, says)
    if "executed" in step:
        whole = "\n".join([says, *(line.strip() for line in run_words.commands(step["executed"]))])
        return Row(place, REQUEST, AT_GATEWAY, executed(step["executed"]), None, whole)
    if "reply" in step:
        return Row(place, ANSWER, AT_CALL, answer(step["reply"]), after, says)
    if "note" in step:
        return Row(place, ANSWER, AT_CALL, [Piece(note(step["note"]))], after, says)
    if word in BY_ITSELF:
        return Row(place, CALL, AT_CALL, [Piece(BY_ITSELF[word])], after, says)
    return Row(place, LINE, more[0], [Piece(DONE[word].format(TONES.get(more[-1], more[-1])))], None, says)


def sent(step):
    """What is sent at a step: who sends it, the key and the number by which it comes to its end, and its pieces."""
    if "executed" in step and step["executed"]["fate"] != "discarded":
        yield AT_GATEWAY, "reply", step["executed"]["request_number"], [Piece("the reply")]
    for told in step["notes"]:
        yield AT_GATEWAY, "note", told["note_number"], [Piece(note(told))]
    if "sent" in step:
        yield AT_CALL, "executed", step["sent"]["request_number"], [*request_words.pieces(step["sent"])]


def starting(place, step, later, is_in_transit):
    """The rows of what is sent at a step and doesn't come to its end at the next one."""
    for by, key, number, pieces in sent(step):
        if not any(is_end(one, key, number) for one in later[:1]):
            comes, is_coming = any(is_end(one, key, number) for one in later), is_in_transit(place, key, number)
            is_lost = not comes and not is_coming
            fate = [] if comes else [Piece("lost", REFUSED)] if is_lost else [Piece("in transit", FAINT)]
            yield Row(place, LOST if is_lost else SENT, by, [*(Piece(one.words, REFUSED if is_lost else FAINT) for one in pieces), *fate])


def rows(steps, is_in_transit=lambda place, key, number: False):
    """The rows of the steps of a line of the report. A message that no step brings to its end was lost, unless whoever asks says that it is in transit: by the
    place of the step that sent it, the key and the number by which it would come to its end."""
    for place, step in enumerate(steps):
        yield ending(place, step)
        yield from starting(place, step, steps[place + 1 :], is_in_transit)
