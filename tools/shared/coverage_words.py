"""What a service does under a yes, state by state: who hears whom where calls rest, which notes are awaited, what plays and who may have lifted, where a mark
is needed, and what becomes of each command over each arrow, by the facts that `mgexplain` tells. Nothing is decided here. It is installed too, so it knows
nothing of this repository."""

NO_REST = "no call rests in it"
NOBODY = "at rest nobody hears another"
END = "a call that rests in it has ended"
QUIET = "all silent, none lifted"
# How far a request has come, by the words of a certificate.
LINKS = {"sent": "while its request is on its way", "ok": "once it is done", "fault": "after it was refused", "rest": "at rest"}
# What becomes of a command, by its flag, in the order in which it is said.
FATES = {"done": "done", "left_out": "left out", "refused": "REFUSED", "not_reached": "not reached"}


def arrow(told):
    """An arrow in words, without the state that it leads to."""
    if told["by"] == "restart":
        return "after a restart"
    by = f"{told['line']}.{told['note_kind']}" if told["by"] == "note" else f"`{told['by']}`"
    return f"from {told['from']} by {by}"


def pairs(told, part):
    """Who hears whom in this part of the configurations at rest."""
    return ", ".join(f"{one['to']} hears {one['from']}" for one in told["hears"] if one["in"] == part)


def hearing(told):
    """The lines on who hears whom."""
    always, sometimes = pairs(told, "all"), pairs(told, "some")
    if not always and not sometimes:
        yield f"  {NOBODY}"
    if always:
        yield f"  at rest always: {always}"
    if sometimes:
        yield f"  at rest sometimes: {sometimes}"


def notes(told, state):
    """The lines on the notes that lists raise; in an end state none is awaited."""
    if state.get("end", False):
        return
    on = state.get("on", {})
    for awaited, word in ((True, "awaited"), (False, "swallowed")):
        these = [one for one in told["notes"] if one["awaited"] == awaited]
        leads = (f" -> {on[one['on_line']][one['note_kind']]}" if awaited else "" for one in these)
        if these:
            yield f"  {word}: " + ", ".join(f"{one['on_line']}.{one['note_kind']}{lead}" for one, lead in zip(these, leads))


def tones(sets):
    """Sets of signals in words."""
    return " or ".join(" and ".join(each) or "nothing" for each in sets)


def telephone(told, state):
    """What is said of a telephone: the signals that its line was given last and that no reported event has stopped, what else it may have been given last,
    whether its receiver may be lifted, and whether it may be heard while that is down."""
    plays = told.get("plays", told["told"])
    if plays not in ([], [[]]):
        yield tones(plays)
    if more := [each for each in told["told"] if each not in plays]:
        yield f"told {tones(more)} too"
    if told["lifted"]:
        yield "lifted in silence" if told["silent"] and not state.get("end", False) else "lifted"
    if told.get("heard_put_down", False):
        yield "heard while it is down"


def telephones(told, state):
    """The telephones of which there is something to say, each with what is said of it; none where nothing is told of them."""
    found = ((one["on_line"], [*telephone(one, state)]) for one in told.get("telephones", []))
    return [f"{line}: {', '.join(words)}" for line, words in found if words]


def at_telephones(told, state):
    """The line on the telephones; none where nothing is told of them."""
    if told.get("telephones"):
        yield f"  telephones: {'; '.join(telephones(told, state)) or QUIET}"


def marks(told):
    """The lines on where marks are needed."""
    for mark in told["marks"]:
        needed = ", ".join(LINKS[link] for link in mark["needed"])
        yield f"  mark {'-'.join(mark['names'])}: needed {needed}" if needed else f"  mark {'-'.join(mark['names'])}: not needed"


def fates(told):
    """What becomes of a command over an arrow: all that can."""
    return ", or ".join(word for flag, word in FATES.items() if told[flag])


def below(told, state):
    """What stands behind an arrow, and the lines below it: what becomes of each command of the state that it leads to."""
    commands = state.get("do", [])
    if not told["entered"]:
        return ": no call takes it", ()
    behind = ": its request may be empty" if told["empty"] and commands else ""
    return behind, tuple(f"    {place}  {command}    <- {fates(fate)}" for place, (command, fate) in enumerate(zip(commands, told["commands"])))


def entered(arrows, state):
    """The lines on the arrows into a state, those together of which the same is so."""
    alike = {}
    for one in arrows:
        alike.setdefault(below(one, state), []).append(arrow(one))
    for (behind, lines), these in alike.items():
        yield f"  {', '.join(these)}{behind}"
        yield from lines


def at_rest(told, state):
    """The lines on where calls rest in a state."""
    if not told["at_rest"]:
        yield f"  {NO_REST}"
        return
    if state.get("end", False):
        yield f"  {END}"
    yield from hearing(told)
    yield from notes(told, state)
    yield from at_telephones(told, state)


def of_state(told, state, arrows):
    """The lines on a state."""
    yield f"state {told['state']}"
    yield from at_rest(told, state)
    yield from marks(told)
    yield from entered(arrows, state)


def paragraphs(page, script):
    """What is so of each state, paragraph by paragraph, each a list of lines."""
    states = {state["name"]: state for state in script["state"]}
    for told in page["rests"]:
        arrows = [one for one in page.get("arrows", []) if one["to"] == told["state"]]
        yield [*of_state(told, states[told["state"]], arrows)]
