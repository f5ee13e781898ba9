"""What a service does under a yes as the cells of a table, a row for each state: who hears whom at rest, which notes are awaited and which are swallowed, what
plays and who may have lifted, and which commands aren't always done, by the facts that `mgexplain` tells. It is installed too, so it knows nothing of this
repository."""
from collections import namedtuple

from shared import coverage_words

# A row: the name of the state, what is said of who hears whom, the notes that are awaited, each with the state that it leads to, those that are swallowed, what
# is said of telephones, and the commands that aren't always done, each with what else becomes of it.
Row = namedtuple("Row", "state hears awaited swallowed telephones commands")
NOT_DONE = ("left_out", "refused", "not_reached")


def pairs(told, part):
    """Who hears whom in this part of the configurations at rest: a pair of which each hears the other once."""
    ways = [(one["from"], one["to"]) for one in told["hears"] if one["in"] == part]
    for heard, hears in ways:
        if (hears, heard) not in ways:
            yield f"{hears} hears {heard}"
        elif ways.index((heard, hears)) < ways.index((hears, heard)):
            yield f"{heard} ↔ {hears}"


def hearing(told, state):
    """Who hears whom where a call rests in a state."""
    if not told["at_rest"]:
        return [coverage_words.NO_REST]
    if state.get("end", False):
        return ["the call has ended"]
    return [*pairs(told, "all"), *(f"sometimes {one}" for one in pairs(told, "some"))] or ["nobody"]


def notes(told, state, awaited):
    """The notes that are awaited, or that are swallowed; in an end none is either."""
    if state.get("end", False):
        return []
    return [(one["on_line"], one["note_kind"]) for one in told["notes"] if one["awaited"] == awaited]


def commands(state, arrows):
    """The commands of a state that aren't done on each way into it, with what else becomes of them."""
    entered = [one["commands"] for one in arrows if one["entered"]]
    for place, command in enumerate(state.get("do", [])):
        fates = [told[place] for told in entered if place < len(told)]
        said = [coverage_words.FATES[flag] for flag in NOT_DONE if any(fate[flag] for fate in fates)]
        if said:
            yield command, ("sometimes " if any(fate["done"] for fate in fates) else "") + " or ".join(said)


def row(told, state, arrows):
    """The row of a state."""
    on = state.get("on", {})
    awaited = [(f"{line}.{kind}", on[line][kind]) for line, kind in notes(told, state, True)]
    swallowed = [f"{line}.{kind}" for line, kind in notes(told, state, False)]
    return Row(state["name"], hearing(told, state), awaited, swallowed, coverage_words.telephones(told, state), [*commands(state, arrows)])


def has_telephones(page):
    """Whether a page tells of telephones."""
    return any("telephones" in told for told in page.get("rests", []))


def rows(page, script):
    """The rows of all states; none where the page tells nothing of them."""
    states = {state["name"]: state for state in script["state"]}
    for told in page.get("rests", []):
        yield row(told, states[told["state"]], [one for one in page.get("arrows", []) if one["to"] == told["state"]])
