"""The commands of a request as values: what a script writes, taken apart, and what its names stand for in a message. It says what is told, and works nothing
out: the numbers are those that `mgexplain` tells of a request and of its reply. It is installed too, so it knows nothing of this repository."""
from collections import namedtuple

# What stands for the null context, for what the gateway is to choose, and for all (H.248.1 sections 8.1.2 and 6.2.2).
NULL, CHOOSE, ALL = "-", "$", "*"
# A command of a script, at a place of its request: its word, its context and whether it creates that, its termination and whether it creates that, the second
# termination and the word of a topology, and its options by their keys.
Command = namedtuple("Command", "place verb context makes_context termination makes_termination second word options")
# What a name stands for: the text of it, and the place of the command of the same request that makes it; None where it was there before.
Meant = namedtuple("Meant", "text made_at")
# A command with what its context, its terminations and its Remote stand for; None for what it doesn't have.
Named = namedtuple("Named", "command context termination second remote")
# What the call knew as it built a request: the texts of its lines, contexts and ephemerals, by their names.
Known = namedtuple("Known", "lines contexts ephemerals")
# What the reply says of a command that was done: the texts of its context, of the ephemeral that it created, and of all that it subtracted.
Result = namedtuple("Result", "context created subtracted")


def line(number):
    """The TerminationID of a line of the gateway."""
    return f"l/{number}"


def ephemeral(number):
    """The TerminationID of an ephemeral."""
    return f"e/{number}"


def known(lines, told):
    """What a call knows as it builds the request that is told, with the texts of its lines."""
    contexts = {each["name"]: str(each["number"]) for each in told.get("contexts", [])}
    ephemerals = {each["name"]: ephemeral(each["number"]) for each in told.get("ephemerals", [])}
    return Known(lines, contexts, ephemerals)


def command(told):
    """A command that is told, taken apart."""
    verb, context, termination, *more = told["command"].split(" ")
    second, word = more if verb == "topology" else (None, None)
    options = {} if verb == "topology" else dict(option.split("=", 1) for option in more)
    makes = [name.startswith(CHOOSE) for name in (context, termination)]
    context, termination = context.removeprefix(CHOOSE), termination.removeprefix(CHOOSE)
    return Command(told["command_place"], verb, context, makes[0], termination, makes[1], second, word, options)


def results(told, lines):
    """What is told of the commands that were done, by their places."""
    found = {}
    for each in told.get("results", []):
        context = str(each["context"]) if "context" in each else NULL
        created = ephemeral(each["created"]) if "created" in each else None
        subtracted = [lines[name] for name in each.get("subtracted_lines", [])] + [ephemeral(number) for number in each.get("subtracted_ephemerals", [])]
        found[each["command_place"]] = Result(context, created, subtracted)
    return found


def named(commands, knowing, done):
    """The commands of a request with what their names stand for. What a command of the request itself makes is for the gateway to choose; where its result is
    among those that are done, it is what the gateway chose."""
    contexts = {name: Meant(text, None) for name, text in {NULL: NULL, **knowing.contexts}.items()}
    terminations = {name: Meant(text, None) for name, text in {ALL: ALL, "none": None, **knowing.lines, **knowing.ephemerals}.items()}
    for each in commands:
        remote = terminations[each.options["remote"]] if "remote" in each.options else None
        result = done.get(each.place, Result(CHOOSE, CHOOSE, []))
        if each.makes_context:
            contexts[each.context] = Meant(result.context, each.place)
        if each.makes_termination:
            terminations[each.termination] = Meant(result.created, each.place)
        second = terminations[each.second] if each.second else None
        yield Named(each, contexts[each.context], terminations[each.termination], second, remote)
