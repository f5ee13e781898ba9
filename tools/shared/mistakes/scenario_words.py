"""What is wrong with a word of a scenario, and with a pair of lines: docs/use/SCENARIOS.md. The flaw is that of the first part that is wrong: what may stand
behind it goes by it. It is installed too, so it knows nothing of this repository."""
import re

from shared.mistakes import words
from shared.mistakes.commands import Flaw, spaces
from shared.mistakes.steps import is_number, line, nothing, vocabulary
from shared.mistakes.words import listed, shown

# What people do on a line and without one, what goes wrong with a message, and all words.
ON_LINE, ALONE, FAULTS = ("off", "on", "flash", "pause"), ("wait", "begin", "restart", "release", "resend"), ("lose", "repeat", "hold")
WORDS = (*ON_LINE, "digits", "end", *ALONE, *FAULTS, "refuse")
MESSAGES = ("note", "request", "reply", "restart")
# The signals by what stands behind the package of each.
TONES = {signal.partition("/")[2]: signal for signal in words.SIGNALS}
PHASES = ("resting", "waiting", "ended", "lost")
# The place of a command, and how many messages of a kind are counted at most.
MOST_PLACE, MOST_COUNT = 15, 99
PAIR = re.compile(r"([^->]*)([->])([^->]*)")


def counted(found):
    """The flaw of a count of messages, or of nothing."""
    if found and not is_number(found[0][0], 1, MOST_COUNT):
        return Flaw(found[0][1], found[0][0], f"{shown(found[0][0])} is no number of 1 to {MOST_COUNT}: which such message it is, from here on")
    return nothing(found[1:])


def digits(found):
    """The flaw of the symbols behind a line; none where they are symbols."""
    if not found:
        return Flaw(0, "", "what is dialled has to stand behind the line")
    (word, before), *more = found
    wrong = next((place for place, sign in enumerate(word) if sign not in words.SYMBOLS), None)
    if wrong is not None:
        return Flaw(before + len(word[:wrong].encode()), word, f"{shown(word[wrong])} is no symbol; they are `0` to `9`, `E` and `F`")
    return nothing(more)


def fault(verb, found):
    """The flaw of what stands behind a word that says what goes wrong with a message."""
    if not found:
        return Flaw(0, "", f"a message has to stand behind `{verb}`: {listed(MESSAGES)}")
    word, before = found[0]
    if word not in MESSAGES:
        return Flaw(before, word, f"{shown(word)} is no message; they are {listed(MESSAGES)}", MESSAGES)
    return counted(found[1:])


def refusal(found):
    """The flaw of what stands behind `refuse`."""
    if not found:
        return Flaw(0, "", "the place of a command, from 0, has to stand behind `refuse`")
    word, before = found[0]
    if not is_number(word, 0, MOST_PLACE):
        return Flaw(before, word, f"{shown(word)} is no place of a command, which is a number of 0 to {MOST_PLACE}")
    return counted(found[1:])


def behind(verb, found, script):
    """The flaw of what stands behind the first part of a word; none where all may stand there."""
    if verb in ON_LINE:
        return line(found, script) or nothing(found[1:])
    if verb == "digits":
        return line(found, script) or digits(found[1:])
    if verb == "end":
        return line(found, script) or vocabulary(found[1:], tuple(TONES), "tone", f"; they are {listed(TONES)}") or nothing(found[2:])
    if verb == "refuse":
        return refusal(found)
    return fault(verb, found) if verb in FAULTS else nothing(found)


def word_flaw(text, script):
    """The flaw of a word of a scenario; none where it is one."""
    space = spaces(text)
    if space:
        return space
    (verb, before), *found = words.parts(text)
    if verb not in WORDS:
        return Flaw(before, verb, f"{shown(verb)} is no word of a scenario", WORDS)
    return behind(verb, found, script)


def pair_flaw(text, script):
    """The flaw of a pair of lines; none where it is one."""
    found = PAIR.fullmatch(text)
    if not found:
        return Flaw(0, text, "a pair is two lines, as `a-b` where both hear each other, and as `a>b` where b hears a")
    first, _, second = found.groups()
    for name, before in ((first, 0), (second, len(first.encode()) + 1)):
        if flaw := line([(name, before)], script):
            return flaw
    return Flaw(0, text, f"{shown(first)} stands there twice") if first == second else None
