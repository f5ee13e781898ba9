"""Trials of what is said of telephones where calls rest, and of the intents that ask for what plays, by facts that are made by hand here: also of those that a
program tells which knows nothing of telephones."""
from shared import coverage_cells, coverage_words
from shared.door import diagnostics, intents, places
from shared.door.inputs import SCENARIOS, SCRIPT, Given
from shared.programs import TOP

HOTLINE = TOP / "gallery" / "hotline" / "script.toml"


def phone(line, told, plays, lifted=False, silent=False, heard=False):
    """What is told of a telephone; where what plays is none, it isn't told."""
    found = {"on_line": line, "told": told, "plays": plays, "lifted": lifted, "silent": silent, "heard_put_down": heard}
    return {key: value for key, value in found.items() if value is not None}


# Telephones: as they should be; where notes come late; where people may do what leads nowhere; where one is heard before it is lifted; where no call rests while
# people act at rest; and where it isn't told what plays.
AS_MEANT = [phone("gate", [["rt"]], [["rt"]], True), phone("guard", [["ri"]], [["ri"]])]
LATE = [phone("gate", [["rt"], ["ri"]], [["rt"]], True), phone("guard", [["ri"], []], [["ri"]])]
LEADS_NOWHERE = [phone("gate", [["rt"]], [["rt"], []], True, True), phone("guard", [["ri", "bt"]], [[], ["ri", "bt"]])]
OPEN = [phone("gate", [[]], [[]], True), phone("guard", [["ri"]], [["ri"]], heard=True)]
ANYHOW = [phone("gate", [["rt"]], []), phone("guard", [[]], [])]
TOO_LITTLE = [phone("gate", [["rt"]], None), phone("guard", [["ri"]], None)]
# Telephones, none where nothing is told of them, with what is said of them, in a state and in an end.
SAID = (
    (AS_MEANT, ["gate: rt, lifted", "guard: ri"], ["gate: rt, lifted", "guard: ri"]),
    (LATE, ["gate: rt, told ri too, lifted", "guard: ri, told nothing too"], ["gate: rt, told ri too, lifted", "guard: ri, told nothing too"]),
    (LEADS_NOWHERE, ["gate: rt or nothing, lifted in silence", "guard: nothing or ri and bt"], ["gate: rt or nothing, lifted", "guard: nothing or ri and bt"]),
    (ANYHOW, ["gate: told rt too", "guard: told nothing too"], ["gate: told rt too", "guard: told nothing too"]),
    (OPEN, ["gate: lifted", "guard: ri, heard while it is down"], ["gate: lifted", "guard: ri, heard while it is down"]),
    ([phone("gate", [[]], [[]]), phone("guard", [[]], [[]])], [], []),
    ([], [], []),
    (None, [], []),
)
# Intents, telephones, and what is told of those that don't hold: the key, and words of what is said.
RINGS, TONES, NOBODY = 'rings = ["guard"]', 'tones = { gate = "rt", guard = "ri" }', "nobody_rings = true"
ASKED = (
    (RINGS, AS_MEANT, []),
    (TONES, AS_MEANT, []),
    (NOBODY, AS_MEANT, [("nobody_rings", "guard may ring")]),
    (RINGS, LATE, [("rings", "gate may ring")]),
    (TONES, LATE, []),
    (RINGS, LEADS_NOWHERE, [("rings", "the ring isn't among the signals of guard in some calls")]),
    (TONES, LEADS_NOWHERE, [("tones", "the signals of gate are rt or nothing, and rt is"), ("tones", "the signals of guard are nothing or ri and bt, and ri is")]),
    ('tones = { gate = ["rt"], guard = ["bt", "ri"] }', LATE, [("tones", "the signals of guard are ri, and bt and ri is")]),
    (RINGS, ANYHOW, [("rings", "no call rests in it while people act at rest")]),
    (NOBODY, ANYHOW, []),
    (RINGS, [], [("rings", intents.NO_REST)]),
    (TONES, [], [("tones", intents.NO_REST)]),
    (NOBODY, [], []),
    (TONES, TOO_LITTLE, [("tones", intents.NO_TELEPHONES)]),
    (NOBODY, TOO_LITTLE, [("nobody_rings", "guard may ring")]),
    (NOBODY, None, [("nobody_rings", intents.NO_TELEPHONES)]),
)


def page(telephones):
    """Facts of a yes in which the telephones of the state `ring` are told."""
    told = {"state": "ring", "at_rest": bool(telephones), "hears": [], "notes": [], "marks": []}
    return {"rests": [told if telephones is None else {**told, "telephones": telephones}], "arrows": [], "warnings": []}


def errors(text, telephones):
    """What is told of intents that don't hold: each key, with what is said."""
    script, file = Given(SCRIPT, "script", HOTLINE.read_bytes()), Given(SCENARIOS, "file", f"[intents.ring]\n{text}\n".encode())
    tables = places.Document(file.text).root.plain()[intents.KEY]
    found = intents.told(page(telephones), tables, intents.Places(script, file))
    return [(one.rule.removeprefix("intent "), one.text) for one in found if one.severity == diagnostics.ERROR]


def tried():
    """All trials, each with what is said where it fails."""
    for telephones, *wanted in SAID:
        facts = page(telephones)
        found = [coverage_words.telephones(facts["rests"][0], {"end": is_end}) for is_end in (False, True)]
        yield f"of {telephones} it is said: {found}", found == wanted
        yield f"whether {telephones} are told", coverage_cells.has_telephones(facts) == (telephones is not None)
        lines = [*coverage_words.at_telephones(facts["rests"][0], {})]
        yield f"the line on {telephones}: {lines}", lines == ([f"  telephones: {'; '.join(wanted[0]) or coverage_words.QUIET}"] if telephones else [])
    for text, telephones, wanted in ASKED:
        found = errors(text, telephones)
        holds = len(found) == len(wanted) and all(key == rule and says in said for (rule, said), (key, says) in zip(found, wanted))
        yield f"{text} of {telephones}: {found}", holds
