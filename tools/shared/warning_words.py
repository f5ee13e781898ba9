"""What is said of what is warned of under a yes, with what may be done about it, by the facts that `mgexplain` tells. Nothing is decided here. It is installed
too, so it knows nothing of this repository."""
from shared import coverage_words

USELESS = "What of it no call uses, the lines that no call hears, the notes and commands that nothing comes of,"
WARNED = f"{USELESS} and the states in which calls are stuck:"
FORGETTING = f"{USELESS} the states in which calls are stuck, and the telephones that are forgotten:"
UNWARNED = (
    "Calls come to each point and use each transition and mark, each line is heard wherever a call rests, no note is swallowed but in the start state, "
    "no command is left out or refused each time, and each call can be moved on and be brought to its end."
)
PUT_DOWN = (
    "If people act only at rest, each note is taken at once, and the gateway neither restarts nor chooses a refusal, then no call ends with a receiver "
    "lifted; none rests, but in the start state, with a lifted receiver that hears no other line and with which nothing can be done that is reported; and no "
    "line is heard while its receiver is down."
)
WARNINGS = {
    "state_unlisted": "no entry is of it, so no call comes to it.",
    "state_never_left": "calls come to it and none ends in it, and no step leads to another state.",
    "arrow_unused": "it says where {0}.{kind} leads, and no call rests in it with a list for {0} that raises that.",
    "mark_unneeded": "it marks {0} and {1} as talking, and no call that comes to it has an audio path between them.",
    "line_deaf": "a call rests in it while {0} has a list without events, so nothing that is done at that telephone is heard.",
    "note_swallowed": "a call rests in it with a list for {0} that raises {0}.{kind}, and it doesn't say where that leads, so nothing happens. {advice}",
    "command_unsent": "its command {place}, `{command}`, is sent by no call that enters it: {lacking} isn't there. {advice}",
    "command_refused": "entered {arrow}, its command {place}, `{command}`, is refused each time that it is reached. {advice}",
    "request_empty": "entered {arrow}, its request is empty each time: none of its commands has what it names. {advice}",
    "entry_unreached": "no call comes to any point of it, so it can go.",
    "entry_held": "entry {holder} has each of its points, so it can go.",
    "point_unreached": "no call comes to its point {point}, the first such; calls come to others of it.",
    "cannot_be_moved": "some call rests in it where no timer leads on, and no receiver that is lifted or put down. {advice}",
    "cannot_end": "some call in this state can't be brought to its end by requests, replies, timers and receivers. {unsearched} {advice}",
    "lifted_at_end": "a call can end in it with the receiver of {0} lifted, which is heard again once it is put down and lifted. {advice}",
    "lifted_in_silence": (
        "a call can rest in it with the receiver of {0} lifted, where it hears no other line, and nothing that can be done with it is reported. {advice}"
    ),
    "heard_put_down": "a call can rest in it with the receiver of {0} down, and another line hears what is said there. {advice}",
}
# What may be done about a warning, each in its case.
HEAR = "Let `on.{0}.{kind}` lead somewhere, or give {0} a list without that event before a call rests here."
BIND = "Let a state on the way here create {used}, or leave the command out."
LEAD = "Let that arrow lead to a state that has other commands or none, or let one before create what they name."
STAND = "{needed} Over that arrow this isn't so: let it lead to a state without the command, or see to it before."
MOVE = (
    "Digits and flashes aren't searched, since nothing may come of them: give it a `timer`, or let it say where a receiver leads that a list of its lines "
    "names."
)
# What the search for ends leaves out (`Leads` of crates/mg_safety/specs/Ending.antt): a call may still end by one of these.
UNSEARCHED = "The search takes no flash, no dialled digit, no refusal that the gateway chooses and no restart, so a call may still end by one of these."
END = "Lead from there by a timer, a reply or a receiver to a state that is marked `end`."
HANG_UP = "Let a state before the end wait until it is put down: `on.{0}.on` leads on from there."
CLOSE = "Let `on.{0}.on` lead on from there, with a list that has `al/on=state`, or give {0} a mode by which it isn't heard before it is lifted."
TELL = "A tone may end by itself: give {0} a list with `al/on`, or one to talk with; or let `on.{0}.of` lead somewhere before."
# The same of a line, by the warning.
OF_LINE = {"note_swallowed": HEAR, "lifted_at_end": HANG_UP, "lifted_in_silence": TELL, "heard_put_down": CLOSE}
# Those of a telephone that is forgotten.
FORGOTTEN = ("lifted_at_end", "lifted_in_silence", "heard_put_down")
# What a command asks, by its first word.
NEEDS = {
    "add": "It asks that its context is there, and that what it adds stands in the null context or is created.",
    "modify": "It asks that what it modifies stands in that context.",
    "move": "It asks that its context is there, and that what it moves stands in another one that isn't the null context.",
    "subtract": "It asks that what it subtracts stands in that context.",
    "topology": "It asks that both stand in that context.",
}


def used(script, command):
    """The contexts and ephemerals that a command uses, and doesn't create, in its order."""
    names = [*script.get("contexts", []), *script.get("ephemerals", [])]
    words = [word.removeprefix("remote=") for word in command.split(" ")[1:]]
    return [f"`{word}`" for word in dict.fromkeys(words) if word in names]


def advice(told, more):
    """What may be done about a warning of what nothing comes of; nothing of any other one."""
    kind = told["warning"]
    if kind in OF_LINE:
        return OF_LINE[kind].format(*told["names"], **more)
    if kind == "command_refused":
        return STAND.format(needed=NEEDS[more["command"].split(" ")[0]])
    return {"command_unsent": BIND, "request_empty": LEAD, "cannot_be_moved": MOVE, "cannot_end": END}.get(kind, "").format(**more)


def of_arrow(told, page):
    """The words on the arrow that a warning is about; nothing where it is about none."""
    if "arrow_place" not in told:
        return ""
    arrow = coverage_words.arrow(page["arrows"][told["arrow_place"]])
    return arrow if arrow.startswith("after") else arrow.replace("from", "from state", 1)


def of_command(told, script):
    """The command that a warning is about; nothing where it is about none."""
    if "command_place" not in told:
        return ""
    return next(state for state in script["state"] if state["name"] == told["state"])["do"][told["command_place"]]


def warned(told, page, script):
    """The sentences on a warning of a page, without its place."""
    command = of_command(told, script)
    names = used(script, command)
    more = {"kind": told.get("note_kind"), "holder": told.get("held_by"), "point": told.get("point_number"), "place": told.get("command_place")}
    more |= {"unsearched": UNSEARCHED, "command": command, "used": " and ".join(names), "lacking": " or ".join(names), "arrow": of_arrow(told, page)}
    return WARNINGS[told["warning"]].format(*told.get("names", []), **more, advice=advice(told, more))


def heading(page):
    """The line above warnings."""
    return FORGETTING if any(told["warning"] in FORGOTTEN for told in page.get("warnings", [])) else WARNED


def unwarned(page):
    """What is said where nothing is warned of; of receivers where telephones are told."""
    return f"{UNWARNED} {PUT_DOWN}" if any("telephones" in told for told in page.get("rests", [])) else UNWARNED


def warning(told, page, script, lines):
    """The line on a warning, by the lines that entries begin on."""
    if "state" in told:
        return f"- state {told['state']}: {warned(told, page, script)}"
    return f"- entry {told['entry_place']}: at line {lines[told['entry_place']]}, {warned(told, page, script)}"
