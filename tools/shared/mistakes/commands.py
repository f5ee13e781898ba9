"""What is wrong with the text of a command, and what the command says as far as it can be read: docs/use/FORMATS.md, Commands. A flaw is the byte of the text
at which a word is wrong, the word, what is wrong with it, and the words that are known in its place. It is installed too, so it knows nothing of this
repository."""
from collections import namedtuple

from shared.mistakes import words
from shared.mistakes.near import nearest
from shared.mistakes.words import FORM, is_name, shown

Flaw = namedtuple("Flaw", "before word says known", defaults=((),))
# A word that names something, with the byte of the text at which it stands.
Named = namedtuple("Named", "name before")
# A command: its verb, its context, whether it creates that, its terminations, whether it creates the first, whether it is of all of the context, and its
# options by their keys. What can't be read, and the null context, is none.
Command = namedtuple("Command", "verb context creates terminations is_own is_all options")
# How a command of each verb is written.
WRITTEN = {verb: f"{verb} CONTEXT TERMINATION" for verb in words.COMMANDS} | {"topology": "topology CONTEXT FIRST SECOND WORD"}
OF_LINES, OF_EPHEMERALS = ("mode", "events", "signals"), ("mode", "remote")
# Why a command has no null context.
NULL = {
    "add": "`add` takes a termination into a context, and `-` is the null context",
    "move": "`move` takes a termination from one context into another, and `-` is the null context; `subtract` takes a line back there",
    "subtract": "`subtract` takes a termination out of a context, and `-` is the null context",
    "topology": "`topology` is of terminations in a context, and `-` is the null context",
}


def spaces(text):
    """The flaw of a text that has no word, two spaces side by side, or one at an end; none where it hasn't."""
    if not text:
        return Flaw(0, "", "it has no word")
    place = words.one_space(text)
    return None if place is None else Flaw(place, text, "words have one space between them")


def form_flaw(word, before, what):
    """The flaw of a word that isn't the name that should stand there; none where it has the form of one."""
    name = word.removeprefix("$")
    if is_name(name):
        return None
    return Flaw(before + len(word) - len(name), name, f"{shown(name)} is no name of {what}: {FORM}")


def context_flaw(verb, word, before):
    """The flaw of the word where a command has its context; none where it may stand there."""
    if word == "-":
        return Flaw(before, word, NULL[verb]) if verb in NULL else None
    if word.startswith("$") and verb != "add":
        return Flaw(before, word, f"`$` before a context's name creates the context, which only `add` does, and this is `{verb}`")
    return form_flaw(word, before, "a context")


def termination_flaw(verb, word, before):
    """The flaw of a word where a command has a termination; none where it may stand there."""
    if word == "*":
        return None if verb == "subtract" else Flaw(before, word, f"`*` is all of a context, which only `subtract` takes, and this is `{verb}`")
    if word.startswith("$") and verb != "add":
        return Flaw(before, word, f"`$` before an ephemeral's name creates the ephemeral, which only `add` does, and this is `{verb}`")
    return form_flaw(word, before, "a line or an ephemeral")


def option_flaw(word, before, seen):
    """The flaw of an option behind those that were seen; none where it can be read."""
    key, sign, value = word.partition("=")
    if not sign:
        return Flaw(before, word, f"{shown(word)} is no option: an option is a key, `=` and a value")
    if key not in words.OPTIONS:
        return Flaw(before, key, f"{shown(key)} is no option; the options are {words.listed(words.OPTIONS)}", words.OPTIONS)
    if key in seen:
        return Flaw(before, key, f"the option `{key}` comes twice")
    at = before + len(key) + 1
    if key == "mode":
        return None if value in words.MODES else Flaw(at, value, f"{shown(value)} is no mode; the modes are {words.listed(words.MODES)}", words.MODES)
    if not value:
        return Flaw(at, "", f"a name has to stand behind `{key}=`")
    return form_flaw(value, at, {"events": "an events list", "signals": "a signals list", "remote": "an ephemeral"}[key]) or dollar(value, at)


def dollar(value, at):
    """The flaw of the value of an option that has `$`; none where it hasn't."""
    return Flaw(at, value, f"{shown(value)} has `$`, which stands only where `add` creates something") if value.startswith("$") else None


def options(found, allowed, of):
    """The options that words write, and the flaws of these. Where some alone are allowed, they are of a termination of this kind."""
    seen, flaws = {}, []
    for word, before in found:
        key, _, value = word.partition("=")
        flaw = option_flaw(word, before, seen)
        if not flaw and allowed and key not in allowed:
            flaw = Flaw(before, key, f"{of} has no option `{key}`; it has {words.listed(allowed)}")
        if flaw:
            flaws.append(flaw)
        if key in words.OPTIONS and key not in seen:
            seen[key] = None if flaw else Named(value, before + len(key) + 1)
    return {key: value for key, value in seen.items() if value}, flaws


def mixed(verb, read):
    """The flaw of a command that has an option of lines and one of ephemerals, at the later one."""
    of_line = read.get("events") or read.get("signals")
    if verb not in ("modify", "move") or not of_line or "remote" not in read:
        return []
    key = "events" if "events" in read else "signals"
    later = max((read[each].before, each) for each in (key, "remote"))[1]
    return [Flaw(read[later].before - len(later) - 1, later, f"`{key}` is of a line and `remote` of an ephemeral, so no termination has both")]


def is_termination(word, script):
    """Whether a word names a line or an ephemeral of the script, and no context."""
    name = word.removeprefix("$")
    return (script.declares("lines", name) or script.declares("ephemerals", name)) and not script.declares("contexts", name)


def is_without_context(verb, found, script):
    """Whether what stands where a command has its context names terminations of the script, so that the context is what is missing."""
    wanted = 2 if verb == "topology" else 1
    return len(found) >= wanted and all(is_termination(word, script) for word, _ in found[:wanted])


def missing(verb, found, script):
    """The flaw of a command that has fewer names than it should."""
    last, before = found[-1] if found else (verb, 0)
    if is_without_context(verb, found, script):
        word, before = found[0]
        return Flaw(before, word, f"the context is missing before {shown(word)}: `{WRITTEN[verb]}`")
    if found and (last == "-" or script.declares("contexts", last.removeprefix("$"))):
        return Flaw(before, last, f"a termination is missing behind {shown(last)}: `{WRITTEN[verb]}`")
    return Flaw(before, last, f"`{verb}` wants more words: `{WRITTEN[verb]}`")


def divided(verb, found):
    """The words behind a verb that name something, and those behind them."""
    count = 3 if verb == "topology" else 2
    if verb == "topology" and found and found[-1][0] in words.TOPOLOGIES:
        count = min(count, len(found) - 1)
    first = next((place for place, (word, _) in enumerate(found) if "=" in word), len(found))
    count = min(count, first) if verb in ("add", "modify", "move") else count
    return found[:count], found[count:]


def behind(verb, is_own, found):
    """The options of a command, and the flaws of what stands behind its names."""
    if verb == "topology" and not found:
        return {}, [Flaw(0, verb, f"`topology` wants a word at its end: {words.listed(words.TOPOLOGIES)}")]
    if verb == "topology" and found[0][0] not in words.TOPOLOGIES:
        says = f"{shown(found[0][0])} is no topology; the topologies are {words.listed(words.TOPOLOGIES)}"
        return {}, [Flaw(found[0][1], found[0][0], says, words.TOPOLOGIES)]
    if verb in ("subtract", "topology"):
        more = found[1 if verb == "topology" else 0 :]
        return {}, [Flaw(before, word, f"there are too many words: `{WRITTEN[verb]}` has no more") for word, before in more[:1]]
    if verb == "add":
        return options(found, *((OF_EPHEMERALS, "an ephemeral") if is_own else (OF_LINES, "a line")))
    read, flaws = options(found, (), "")
    return read, flaws + mixed(verb, read)


def named(word, before, flaw):
    """The name that a word is; none where it has a flaw, or is no name."""
    name = word.removeprefix("$")
    return None if flaw or name in ("-", "*") else Named(name, before + len(word) - len(name))


def parted(verb, found, script):
    """The command that the words behind a verb write, and their flaws."""
    front, more = divided(verb, found)
    is_short = len(front) < len(WRITTEN[verb].split()) - 1 - (verb == "topology")
    flaws = [missing(verb, front, script)] if is_short else []
    is_bare = is_short and is_without_context(verb, front, script)
    context, terminations = ([], front) if is_bare else (front[:1], front[1:])
    of_context = [context_flaw(verb, *one) for one in context]
    of_rest = [termination_flaw(verb, *one) for one in terminations]
    is_own = verb == "add" and bool(terminations) and terminations[0][0].startswith("$")
    read, of_options = ({}, []) if is_short and verb == "topology" else behind(verb, is_own, more)
    flaws += [flaw for flaw in of_context + of_rest if flaw] + of_options
    return Command(
        verb,
        named(*context[0], of_context[0]) if context else None,
        verb == "add" and bool(context) and context[0][0].startswith("$"),
        [named(*one, flaw) for one, flaw in zip(terminations, of_rest)],
        is_own,
        verb == "subtract" and [word for word, _ in terminations] == ["*"],
        read,
    ), flaws


def command(text, script):
    """The command that a text writes, as far as it can be read, and its flaws; none where no verb can. The names of its script say which word is missing."""
    space = spaces(text)
    flaws = [space] if space else []
    found = [part for part in words.parts(text) if part[0]]
    if not found:
        return None, flaws
    (verb, before), *more = found
    if verb not in words.COMMANDS:
        flaws.append(Flaw(before, verb, f"{shown(verb)} is no command; the commands are {words.listed(words.COMMANDS)}", words.COMMANDS))
        verb = nearest(verb, words.COMMANDS)
    if verb is None:
        return None, flaws
    read, more = parted(verb, more, script)
    return read, flaws + more
