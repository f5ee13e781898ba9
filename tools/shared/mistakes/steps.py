"""What is wrong with the text of a step of a plan: docs/use/FORMATS.md, The plan. The flaw is that of the first word that is wrong: what may stand behind it
goes by it. It is installed too, so it knows nothing of this repository."""
import re

from shared.mistakes import words
from shared.mistakes.commands import Flaw, spaces
from shared.mistakes.words import shown

NUMBER = re.compile("0|[1-9][0-9]{0,9}")
MOST_MESSAGE, MOST_PLACE = 4_294_967_295, 255
MESSAGE = "no number of 1 to 4,294,967,295 without leading zeros"


def is_number(word, least, most):
    """Whether a word is a number within bounds, in decimal digits without leading zeros."""
    return NUMBER.fullmatch(word) is not None and least <= int(word) <= most


def nothing(found):
    """The flaw of the first of some words where none may stand."""
    return Flaw(found[0][1], found[0][0], f"{shown(found[0][0])} stands behind all that its step may have") if found else None


def line(found, script):
    """The flaw of the word that should name a line; none where it does. Where there is no script any name may be one."""
    if not found:
        return Flaw(0, "", "the name of a line has to stand behind it")
    word, before = found[0]
    if words.is_name(word) and (script is None or script.knows("lines", word)):
        return None
    return Flaw(before, word, f"{shown(word)} is no line of the script", script.texts("lines") if script is not None else ())


def vocabulary(found, known, what, says):
    """The flaw of the word behind a line that has to be one of these; none where it is."""
    if not found:
        return Flaw(0, "", f"a {what} has to stand behind the line")
    word, before = found[0]
    return None if word in known else Flaw(before, word, f"{shown(word)} is no {what}{says}", known)


def refusal(found, says, known):
    """The flaw of words that have to be a refusal, or nothing."""
    if not found:
        return None
    (word, before), *more = found
    if word != "refuse":
        return Flaw(before, word, f"{shown(word)} is {says}", known)
    if not more:
        return Flaw(before, word, "the place of a command has to stand behind `refuse`")
    if not is_number(more[0][0], 0, MOST_PLACE):
        return Flaw(more[0][1], more[0][0], f"{shown(more[0][0])} is no number of 0 to 255 without leading zeros")
    return nothing(more[1:])


def executed(found):
    """The flaw of what stands behind `execute`."""
    if found and is_number(found[0][0], 1, MOST_MESSAGE):
        return refusal(found[1:], "not `refuse`", ("refuse",))
    return refusal(found, f"{MESSAGE}, nor `refuse`", ("refuse",))


def message(found):
    """The flaw of the number of a message, or of nothing."""
    if found and not is_number(found[0][0], 1, MOST_MESSAGE):
        return Flaw(found[0][1], found[0][0], f"{shown(found[0][0])} is {MESSAGE}")
    return nothing(found[1:])


def behind(verb, found, script):
    """The flaw of what stands behind the first word of a step; none where all may stand there."""
    if verb in ("off", "on", "flash", "pause"):
        return line(found, script) or nothing(found[1:])
    if verb == "digit":
        says = ", which are `0` to `9`, `E` and `F`"
        return line(found, script) or vocabulary(found[1:], words.SYMBOLS, "symbol", says) or nothing(found[2:])
    if verb == "end":
        says = f"; the signals are {words.listed(words.SIGNALS)}"
        return line(found, script) or vocabulary(found[1:], words.SIGNALS, "signal", says) or nothing(found[2:])
    if verb == "execute":
        return executed(found)
    return message(found) if verb in ("reply", "note") else nothing(found)


def step_flaw(text, script):
    """The flaw of the text of a step; none where it is one."""
    space = spaces(text)
    if space:
        return space
    (verb, before), *found = words.parts(text)
    if verb not in words.STEPS:
        return Flaw(before, verb, f"{shown(verb)} is no step", words.STEPS)
    return behind(verb, found, script)
