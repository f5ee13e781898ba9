"""The intents of tests/coverage: what is told of those that don't hold, by the facts of a page. A file has at its end, in remarks, each error and each note
that has to be told, in their order."""
import re

from gate import door_rows
from shared.door import diagnostics, intent_mistakes, intents, places
from shared.door.inputs import SCENARIOS, SCRIPT, Given

TOLD = re.compile(r"^# told: (.*)$", re.MULTILINE)
KINDS = {"script.toml": "script", "intents.toml": "intents"}


def tried(folder, page):
    """What is said of the intents of a folder, by the facts of its script, and whether that is as it should be."""
    script, file = (Given(kind, name, (folder / name).read_bytes()) for kind, name in ((SCRIPT, "script.toml"), (SCENARIOS, "intents.toml")))
    yield f"{folder.name}: its intents have mistakes", not intent_mistakes.mistakes(script, file)
    tables = places.Document(file.text).root.plain()[intents.KEY]
    where = intents.Places(script, file)
    untold = [intents.UNTOLD in one.text for one in intents.told({}, tables, where)]
    yield f"{folder.name}: its intents where no facts are told", untold == [True] * sum(map(len, tables.values()))
    lines = [diagnostics.line(one) for one in intents.told(page, tables, where)]
    found, wanted = [*door_rows.told(lines, KINDS)], [*door_rows.wanted(TOLD.findall(file.text.decode()))]
    yield f"{folder.name}: of its intents it is told {lines}", bool(wanted) and len(found) == len(wanted) and all(map(door_rows.is_as, found, wanted))
