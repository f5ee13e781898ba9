"""What of a yes is warned of though it is meant: the notes that the intents of the file beside a script say are ignored. It is installed too, so it knows
nothing of this repository."""
import os

from shared.door import inputs, intent_mistakes, intents, kept, places
from shared.door.diagnostics import NOTE
from shared.door.inputs import SCENARIOS

SWALLOWED = "note_swallowed"
UNTAKEN = "no intent is taken from this file: {}"


def untaken(told):
    """The note that intents can't be taken."""
    return told._replace(severity=NOTE, text=UNTAKEN.format(told.text))


def ignored(script):
    """The notes that the intents beside a script say are ignored, each with its state; and what is told where these can't be taken."""
    beside = None if script.name == inputs.STANDARD_INPUT else kept.Beside(script.name).scenarios
    if beside is None or not beside.exists():
        return set(), []
    try:
        file = inputs.read(SCENARIOS, os.fspath(beside))
    except inputs.Refused as fault:
        return set(), [untaken(fault.told)]
    if found := intent_mistakes.mistakes(script, file):
        return set(), [untaken(found[0])]
    tables = places.Document(file.text).root.plain().get(intents.KEY, {})
    return {(state, word) for state, table in tables.items() for word in table.get(intents.IGNORES, [])}, []


def of_page(page, script):
    """The same of a yes, where it is asked: some note is swallowed."""
    return ignored(script) if any(told["warning"] == SWALLOWED for told in page.get("warnings", [])) else (set(), [])
