"""What doesn't hold of what telephones are meant to be told where calls rest in a state: which of them ring, and what plays. It is installed too, so it knows
nothing of this repository."""
from shared import coverage_words

RING = "ri"
QUIETLY = "while people act at rest and notes come at once"


def are_played(telephones):
    """Whether it is told what plays on each line."""
    return all("plays" in one for one in telephones)


def sets(one):
    """The sets of signals that a line was given last and that nothing has stopped; none where no call rests there in that manner, or they aren't told."""
    return one.get("plays", [])


def ringing(telephones, lines):
    """What doesn't hold where these lines ring, each time, and no other one, however late notes come: what is said, with the place of the line in the list."""
    for one in telephones:
        line, place = one["on_line"], [lines.index(one["on_line"])] if one["on_line"] in lines else []
        if place and not sets(one):
            yield f"no call rests in it {QUIETLY}", *place
        elif place and not all(RING in each for each in sets(one)):
            calls = "some calls that rest" if any(RING in each for each in sets(one)) else "any call that rests"
            yield f"the ring isn't among the signals of {line} in {calls} in it", *place
        elif not place and any(RING in each for each in one["told"]):
            yield (f"{line} may ring in it",)


def wanted(tones):
    """The tones that a text or a list of texts names."""
    return {tones} if isinstance(tones, str) else {*tones}


def playing(telephones, tones):
    """The lines on which something else plays than these tones, and on others than nothing, each with what is said of it."""
    for one in telephones:
        line, these = one["on_line"], wanted(tones.get(one["on_line"], []))
        if not sets(one) or any({*each} != these for each in sets(one)):
            found = f"the signals of {line} are {coverage_words.tones(sets(one))}" if sets(one) else f"no call rests in it {QUIETLY}"
            yield line, f"{found}, and {' and '.join(sorted(these)) or 'nothing'} is expected"
