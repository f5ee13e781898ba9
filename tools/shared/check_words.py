"""What is said of a check: sentences on the facts that `mgexplain` tells of a script and a certificate, paragraph by paragraph. Nothing is decided here. It
is installed too, so it knows nothing of this repository."""
import json

from shared import certificates, coverage_words, entry_places, scripts, warning_words, way_steps

YES = (
    "Every obligation holds at each point and for each step from it: nothing unsafe happens. The numbers are those of the script's states, of the "
    "certificate's entries, and of their points."
)
MEANT = "Whether the service is what you meant, `--coverage` shows: who hears whom, which notes are awaited, and which commands are done."
MANY = "Calls come to a million configurations or more, so it isn't told what of this no call uses."
# What an obligation asks, and what may be done where it is broken, beside giving the entry that is wanted.
RULES = {
    "K1": "the configuration in which a call opens is in some entry. No entry has the one below.",
    "K2": "the result of each step of each point is in some entry. A step of the point below leads where no entry is.",
    "K3": "lines that are joined, so that media goes from one to the other, are marked as talking in the point's state, however far its request has come.",
    "K4": "where a call has ended, at rest in an end state, each line is silent, in the null context and armed for off-hook alone, and no ephemeral exists.",
    "K5": "while a state's request is on its way, the names that it creates are free, else what they stood for is lost.",
    "K6": (
        "the configuration after a restart of the gateway is in some entry: the restart state as entered, each line in the null context with an empty "
        "events list. No entry has the one below."
    ),
    "K7": "while a request is on its way, and at rest, a name that is bound stands for what exists; what it stood for may be another call's by now.",
}
ADVICE = {
    "K2": "If no call is to come there, it is the script that has to change.",
    "K3": (
        "A state before has to part them, by a topology or by taking one of them out of the context. If they are to talk here, give the state the pair "
        "in its `talk`: that mark takes this check off the pair wherever a call is in the state. At link `sent` and `fault` there stands what the "
        "states before have left: a state that parts them has the pair too. Else the entry has more than calls come to."
    ),
    "K4": "A state that leads here has to do this in its request, and lead here by `ok` alone. If one does, the entry has more than calls come to.",
    "K5": (
        "A state on the way here has to free the name: a context by `subtract CONTEXT *`, an ephemeral by subtracting it. If one does, the entry has "
        "more than calls come to."
    ),
    "K7": (
        "Take the last one out of a context by `subtract CONTEXT *`, which frees its name, and set a Remote to `none` before what it names is "
        "subtracted. If this is done, the entry has more than calls come to."
    ),
}
# What is said beside an entry, and in its place, where the state has as many entries as it may.
WIDENED = (
    "The state has its 256 entries, so no other fits behind them; the one above is one of these, widened in all that it lacks. It may get "
    "configurations that no call comes to."
)
NO_ROOM = (
    "The state has its 256 entries, and none of them can be widened to have it within 65,536 points. Put one entry in the place of two that differ in "
    "one component alone."
)
OPENS = "A call is at this point as it opens."
COMES = "A call comes to this point by these steps of a plan, each move with the state and the link after it:"
TOO_FAR = "Whether a call comes to this point isn't known: it isn't among the first 1,000,000 configurations that calls come to."
NEVER = (
    "No call comes to this point by these entries: entry {place} has more than calls come to, or an entry on the way there is still missing. {advice}"
)
# What may be done where no call comes to the point.
PUT = "Put the entry below in its place: it has each configuration of that one that a call comes to."
DIVIDE = "Each of its values is that of another point that a call comes to: put more than one entry in its place."
LEFT = {"none": "No call comes to any point of that entry: leave it out until one does.", "unknown": "Let that entry have less."}
BREACHES = {
    "joined": "Lines {0} and {1} are joined, and state {state} has no `{0}-{1}` in its `talk`. Media goes",
    "away": "Line {0} is not in the null context.",
    "playing": "Line {0} may still play a signal.",
    "not_armed": "The events list of line {0} is not exactly `al/of`.",
    "remaining": "Ephemeral {0} still exists.",
    "bound_context": "State {state} creates context {0}, and that name is bound.",
    "bound_ephemeral": "State {state} creates ephemeral {0}, and it exists.",
    "stale_context": "Context {0} has been deleted, and its name is bound.",
    "gone_remote": "The Remote of ephemeral {0} has been destroyed.",
}
# What a line does, by the kind of its note.
KINDS = {
    "on": "goes on hook",
    "of": "goes off hook",
    "fl": "flashes its hook",
    "full": "has dialled a whole number (its digit map is completed by UM or FM)",
    "part": "has dialled a part of a number (its digit map is completed by PM)",
}
def entry(script, told):
    """An entry that is told, as a certificate writes it on one line."""
    return json.dumps(certificates.of_facts(script, told), separators=(",", ":"))


def configuration(told):
    """The lines on a configuration; what isn't cut is left out."""
    lines, before = [f"  state {told['state']}"], ""
    for part in told["parts"]:
        *owner, key = part["component"].split(".")
        said = f"{key} {part['value']}"
        if owner == ["cuts"] and part["value"] == "no":
            continue
        if owner == ["cuts"]:
            lines.append(f"  cut {said}")
        elif owner == ["contexts"]:
            lines.append(f"  context {said}")
        elif owner == before or not owner:
            lines[-1] += f", {said}"
        else:
            lines.append(f"  {owner[0].removesuffix('s')} {owner[1]}: {said}")
        before = owner
    return lines


def rule(page):
    """What a yes says."""
    return YES if "warnings" in page else f"{YES} {MANY}"


ENDS = "Each call can be brought to its end from wherever it is, by at most {moves} moves: requests, replies, timers and receivers."
STUCK = (
    "These steps of a plan lead a call to a configuration from which requests, replies, timers and receivers can't bring it to its end. {unsearched} "
    "Each move has the state and the link after it:"
)
STUCK_AT_ONCE = "Requests, replies, timers and receivers can't bring a call to its end from its opening. {unsearched}"


def ended(page, script):
    """By how many moves each call can be brought to its end, or a shortest trace to a configuration from which none can; nothing if the facts have neither."""
    told = page.get("ending", {})
    if "each_within" in told:
        yield [ENDS.format(moves=told["each_within"])]
    elif "stuck" in told:
        moves = [*map(made, way_steps.moves(script, told["stuck"]))]
        yield [(STUCK if moves else STUCK_AT_ONCE).format(unsearched=warning_words.UNSEARCHED), *moves]


def worth(page, texts):
    """What a yes is worth, and what it leaves to whoever wrote the script."""
    if "warnings" not in page:
        yield [rule(page)]
    else:
        yield [f"{rule(page)} {MEANT}"]
        script, lines = scripts.read(texts[0]), entry_places.lines(texts[1])
        said = [warning_words.warning(told, page, script, lines) for told in page["warnings"]]
        yield [warning_words.heading(page), *said] if said else [warning_words.unwarned(page)]
        yield from ended(page, script)


def covered(page, texts):
    """What a service does under a yes, paragraph by paragraph; where that isn't told, why."""
    yield [page["line"]]
    yield [rule(page)]
    if "rests" in page:
        yield from coverage_words.paragraphs(page, scripts.read(texts[0]))


def point(told, certificate):
    """The point of a No, with its entry."""
    listed = entry_places.listed(certificate, told["entry_place"])
    yield [f"Entry {told['entry_place']}, counted from 0, at line {listed.line} of the certificate:", f"  {listed.text}"]
    yield [f"Point {told['point_number']} of it is this configuration:", *configuration(told["configuration"])]


def made(move):
    """The line on a move of a way."""
    words = ", ".join(move.plan) if move.plan else f"{move.words}, which no step of a plan makes here"
    return f"  {words} -> state {move.state}, link {move.link}"


def way(page, script):
    """What is known of the ways to the point, with the part of its entry that calls come to where none comes to it."""
    told, part = page["way"], page.get("part", {})
    if "comes" not in told:
        return [TOO_FAR]
    if told["comes"]:
        return [COMES if told["moves"] else OPENS, *map(made, way_steps.moves(script, told))]
    place = page["point"]["entry_place"]
    if part["reached"] != "some":
        return [NEVER.format(place=place, advice=LEFT[part["reached"]])]
    if part["has_point"]:
        return [NEVER.format(place=place, advice=DIVIDE)]
    return [NEVER.format(place=place, advice=PUT), f"  {entry(script, part['entry'])}"]


def hop(told):
    """The line on a hop of media."""
    if told["context"] is None:
        return f"  from {told['from']} over to {told['to']}, each the other's Remote"
    return f"  from {told['from']} to {told['to']} in context {told['context']}"


def breach(told, state):
    """The lines on what of a point of a state breaks the obligation."""
    lines = [BREACHES[told["breach"]].format(*told["names"], state=state), *map(hop, told.get("path", []))]
    if "left_by" in told:
        cause = told["left_by"]
        lines.append(
            f"On the way there command {cause['command_place']} of state {cause['state']}, counted from 0, left it so: `{cause['command']}`."
        )
    return lines


def happens(told, link):
    """What happens in a step from a point with this link."""
    words, to = told["step"], told["result"]["state"]
    if words.startswith("refuse "):
        return f"the gateway does the commands before place {words.split()[1]} and refuses the one there"
    if words == "execute":
        return "the gateway executes the whole request"
    if words == "timer":
        return f"the timer ends, and leads to state {to}"
    if words == "reply" and link == "fault":
        return f"the reply tells of the refusal, and `fault` leads to state {to}"
    if words == "reply":
        rests = certificates.link(told["result"]) == "rest"
        return f"the reply is taken, and {'the call rests in' if rests else '`ok` leads to'} state {to}"
    line, kind = words.split(".")
    return f"line {line} {KINDS[kind]}, and `on` leads to state {to}"


def step(told, link):
    """The step of the point that leads where no entry is."""
    yield f"The step `{told['step']}`: {happens(told, link)}."
    if told["request"]:
        yield f"The request of state {told['state']} is"
    yield from (f"  {each['command_place']}  {each['command']}    <- {each['mark']}" for each in told["request"])
    yield "The step leads to this configuration, which no entry has:"
    yield from configuration(told["result"])


def nearest(told, certificate):
    """The entry that comes nearest to having what no entry has."""
    listed = entry_places.listed(certificate, told["entry_place"])
    yield f"The nearest entry of that state is entry {told['entry_place']}, at line {listed.line} of the certificate:"
    yield f"  {listed.text}"
    yield "These of its components don't have it:"
    yield from (f"  {lack['component']} lacks {lack['value']}; it has {' '.join(lack['has'])}" for lack in told["lacks"])


def mended(page, script):
    """The entry that would have it, and where to put it."""
    if "widens" in page:
        yield f"This is entry {page['widens']} with what it lacks, and would have it. Put it in the place of that one:"
    else:
        yield "This entry would have it. Paste it behind the last one:"
    yield f"  {entry(script, page['entry'])}"
    if "alone" in page:
        yield "Or, if that one gets configurations that no call comes to, paste this one behind the last, which has no other:"
        yield f"  {entry(script, page['alone'])}"


def lacking(page, script, certificate):
    """What is said of a configuration that no entry has."""
    if "nearest" in page:
        yield [*nearest(page["nearest"], certificate)]
    if "entry" in page:
        yield [*mended(page, script)]
    if "is_full" in page:
        yield [WIDENED if "entry" in page else NO_ROOM]


def refuted(page, texts):
    """What is said of a No."""
    script, obligation = scripts.read(texts[0]), page["obligation"]
    yield [f"{obligation}: {RULES[obligation]}"]
    if "point" in page:
        yield from point(page["point"], texts[1])
        yield way(page, script)
        yield from (breach(told, page["point"]["configuration"]["state"]) for told in page.get("breaches", []))
    if "step" in page:
        yield [*step(page["step"], certificates.link(page["point"]["configuration"]))]
    if "uncovered" in page:
        yield configuration(page["uncovered"])
    yield from lacking(page, script, texts[1])
    if obligation in ADVICE:
        yield [ADVICE[obligation]]


def paragraphs(page, texts):
    """What is said of a yes or a No of a script and a certificate, paragraph by paragraph, each a list of lines."""
    return [*(refuted if "obligation" in page else worth)(page, texts)]
