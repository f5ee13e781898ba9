"""What is wrong with the text of an item of an events list, of a signal or of a pair that talks, and what the text says where its form is right. It is
installed too, so it knows nothing of this repository."""
from shared.mistakes import words
from shared.mistakes.commands import Flaw, Named, form_flaw
from shared.mistakes.words import shown


def item(text):
    """The event that an item of an events list names, the map that it names, and its flaws; none where it names none."""
    event, sign, value = text.partition("=")
    before = len(event.encode()) + 1
    if event not in words.EVENTS:
        return None, None, [Flaw(0, event, f"{shown(event)} is no event; the events are {words.listed(words.EVENTS)}", words.EVENTS)]
    if event == "al/fl":
        return event, None, [Flaw(before - 1, text, "`al/fl` has no value")] if sign else []
    if event == "dd/ce" and not value:
        return event, None, [Flaw(0, text, "`dd/ce` wants the name of a map, as `dd/ce=MAP`")]
    if event == "dd/ce":
        flaw = form_flaw(value, before, "a map") if not value.startswith("$") else Flaw(before, value, f"{shown(value)} is no name of a map: {words.FORM}")
        return event, None if flaw else Named(value, before), [flaw] if flaw else []
    if sign and value not in words.STRICTNESSES:
        says = f"{shown(value)} is no strictness, which is `exact` or `state`"
        return event, None, [Flaw(before, value, says, words.STRICTNESSES)]
    return event, None, []


def signal(text):
    """The flaws of a text that should be a signal."""
    return [] if text in words.SIGNALS else [Flaw(0, text, f"{shown(text)} is no signal; the signals are {words.listed(words.SIGNALS)}", words.SIGNALS)]


def pair(text):
    """The lines that a pair names, and its flaws."""
    first, sign, second = text.partition("-")
    before = len(first.encode()) + 1
    if not first or not second or "-" in second or not words.is_name(first) and not words.is_name(second):
        return [], [Flaw(0, text, "a pair is two lines with `-` between them")]
    flaws = [
        Flaw(at, name, f"{shown(name)} is no name of a line: {words.FORM}") for name, at in ((first, 0), (second, before)) if not words.is_name(name)
    ]
    return [Named(name, at) for name, at in ((first, 0), (second, before)) if words.is_name(name)], flaws
