"""Messages in the text of H.248.1 Annex B.2, version 1: requests, replies, notifications and the gateway's ServiceChange, from values. What of this profile
has no text of its own is written in the way that stands nearest; docs/use/FORMATS.md has the table. It knows nothing of runs. It is installed too, so it
knows nothing of this repository."""

# Where the two ends stand: addresses of the loopback range, and the port for the text (H.248.1 Annex D.1).
CONTROLLER, GATEWAY, PORT = "127.0.0.1", "127.0.0.2", 2944
VERBS = {"add": "Add", "modify": "Modify", "move": "Move", "subtract": "Subtract"}
TOPOLOGIES = {"isolate": "Isolate", "oneway": "Oneway", "bothway": "Bothway"}
# The event that each kind of note reports; `full` and `part` are told apart by their method.
EVENTS = {"on": "al/on", "of": "al/of", "fl": "al/fl", "full": "dd/ce", "part": "dd/ce"}
# The error codes with the texts that H.248.8 gives them.
ERRORS = {
    411: "The transaction refers to an unknown ContextId",
    430: "Unknown TerminationID",
    433: "TerminationID is already in a Context",
    435: "Termination ID is not in specified Context",
    500: "Internal software failure in the MG",
    510: "Insufficient resources",
}
# The events list and the signals list that every script has.
LISTS = {"none": [], "armed": ["al/of"]}
# The attribute of a session description that names the ephemeral which a Remote is. No gateway but this one's knows it.
ATTRIBUTE = "X-termination"


class AtMargin(str):
    """A line that stands at the margin, however deep: one of a session description, whose lines begin with their letter."""


def block(head, parts):
    """The lines of a thing: its head, and within braces its parts with commas between them; the head alone where it has none."""
    if not parts:
        return [head]
    lines = [f"{head} {{"]
    for place, part in enumerate(parts):
        *front, last = part
        comma = "," if place + 1 < len(parts) else ""
        lines += [*map(indented, front), indented(type(last)(last + comma))]
    return [*lines, "}"]


def indented(line):
    """A line one step further in, unless it stands at the margin."""
    return line if isinstance(line, AtMargin) else f"  {line}"


def message(sender, lines):
    """The text of a message of one end."""
    return "\n".join([f"MEGACO/1 [{sender}]:{PORT}", *lines, ""])


# ---- descriptors


def media(options, remote):
    """The Media descriptor of a command (section 7.1.4), in a list; an empty list where the command sets nothing of it."""
    parts = []
    if "mode" in options:
        parts.append(block("LocalControl", [[f"Mode = {options['mode']}"]]))
    if remote is not None:
        parts.append(["Remote {", *session(remote.text), AtMargin("}")])
    return [block("Media", parts)] if parts else []


def session(far_end):
    """The lines of a session description whose far end is another ephemeral; none where there is no far end (section 7.1.8)."""
    if far_end is None:
        return []
    lines = ("v=0", f"c=IN IP4 {GATEWAY}", "m=audio 9 RTP/AVP 0", f"a={ATTRIBUTE}:{far_end}")
    return [AtMargin(line) for line in lines]


def digit_map(name, script):
    """The DigitMap descriptor of a map of the script (section 7.1.14)."""
    text = next(each["map"] for each in script["maps"] if each["name"] == name)
    return [f"DigitMap = {name} {{ {text if text.startswith('(') else f'({text})'} }}"]


def event(item):
    """An item of an events list (Annex E.6 and E.9)."""
    name, _, parameter = item.partition("=")
    if name == "dd/ce":
        return block(name, [[f"DigitMap = {parameter}"]])
    return block(name, [[f"strict = {parameter}"]] if parameter else [])


def items_of(kind, name, script):
    """What a list of a script holds."""
    return next((each["list"] for each in script.get(kind, []) if each["name"] == name), None) or LISTS.get(name, [])


def events(name, number, script):
    """The DigitMap descriptors that an events list needs, and its Events descriptor with its RequestID (section 7.1.9); an empty one is the word alone."""
    items = items_of("events", name, script)
    maps = [digit_map(item.partition("=")[2], script) for item in items if item.startswith("dd/ce=")]
    return [*maps, block(f"Events = {number}" if items else "Events", [event(item) for item in items])]


def signals(name, script):
    """The Signals descriptor of a list (section 7.1.11); an empty one is the word alone."""
    return block("Signals", [[signal] for signal in items_of("signals", name, script)])


def descriptors(named, number, script):
    """All descriptors of a command of the request with a number."""
    options = named.command.options
    parts = media(options, named.remote)
    if "events" in options:
        parts += events(options["events"], number, script)
    if "signals" in options:
        parts.append(signals(options["signals"], script))
    return parts


def topology(named):
    """The Topology descriptor of a command (section 7.1.18)."""
    return block("Topology", [[f"{named.termination.text}, {named.second.text}, {TOPOLOGIES[named.command.word]}"]])


def error(code):
    """The Error descriptor of a code (section 7.1.19)."""
    return block(f"Error = {code}", [[f'"{ERRORS[code]}"']])


# ---- commands and actions


def command(named, number, script):
    """A command of the request with a number (section 7.2)."""
    if named.command.verb == "topology":
        return topology(named)
    return block(f"{VERBS[named.command.verb]} = {named.termination.text}", descriptors(named, number, script))


def done(named, result):
    """What a reply says of a command that was done: one for each termination, of a Subtract each that it subtracted."""
    if named.command.verb == "topology":
        return [topology(named)]
    of = result.subtracted if named.command.verb == "subtract" else [named.termination.text]
    return [[f"{VERBS[named.command.verb]} = {termination}"] for termination in of]


def goes_on(before, named):
    """Whether a command stands in the action of the one before it: that of the same context. A topology is a property of its context, and comes first in an
    action; so it has one of its own, in its place among the commands."""
    return before.context == named.context and "topology" not in (before.command.verb, named.command.verb)


def actions(said):
    """The actions of a request or a reply (sections 8.1.2 and 8.2): what is said of each command, in its order."""
    found, before = [], None
    for named, parts in said:
        if before is None or not goes_on(before, named):
            found.append((named.context.text, []))
        found[-1][1].extend(parts)
        before = named
    return [block(f"Context = {context}", parts) for context, parts in found]


# ---- messages


def request(number, commands, script):
    """The request of a call with a number, of these commands (section 8.2.1)."""
    said = [(named, [command(named, number, script)]) for named in commands]
    return message(CONTROLLER, block(f"Transaction = {number}", actions(said)))


def reply(number, commands, results, refused):
    """The reply to the request with a number (section 8.2.2): the results of its commands by their places, and behind them the error of the one that was
    refused."""
    said = []
    for named in commands:
        place = named.command.place
        if place in results:
            said.append((named, done(named, results[place])))
        elif refused is not None and place == refused["command_place"]:
            said.append((named, [error(refused["code"])]))
    return message(GATEWAY, block(f"Reply = {number}", actions(said)))


def observed(note):
    """The event that a note reports (section 7.1.17), with what completed a digit map."""
    return block(EVENTS[note["note_kind"]], [[f'ds = "{note["symbols"]}"'], [f"Meth = {note['method']}"]] if "method" in note else [])


def notify(note, context, termination):
    """A note, on its line in a context (section 7.2.7)."""
    reported = block(f"ObservedEvents = {note['raised_by']}", [observed(note)])
    sent = block(f"Context = {context}", [block(f"Notify = {termination}", [reported])])
    return message(GATEWAY, block(f"Transaction = {note['note_number']}", [sent]))


def service_change(number):
    """The gateway's word that it restarted (section 7.2.8)."""
    services = block("Services", [["Method = Restart"], ['Reason = "901 Cold Boot"']])
    sent = block("Context = -", [block("ServiceChange = ROOT", [services])])
    return message(GATEWAY, block(f"Transaction = {number}", [sent]))
