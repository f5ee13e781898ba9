"""What people may do so that a call comes over an arrow, by the arrows that calls go over: a scenario that tries it. That one call goes over all of these
arrows isn't known; running the scenario shows it. It is installed too, so it knows nothing of this repository."""
import json

# What people do at a telephone, by the kind of the note that comes of it. Which digits are dialled isn't told by an arrow.
ACTS = {"of": "off", "on": "on", "fl": "flash"}
WAIT = "wait"


def acts(arrow):
    """What people do so that a call goes over an arrow, word by word; none where that isn't known, or something has to go wrong."""
    if arrow["by"] == "note":
        return [f"{ACTS[arrow['note_kind']]} {arrow['line']}"] if arrow["note_kind"] in ACTS else None
    return {"ok": [], "timer": [WAIT]}.get(arrow["by"])


def ways(arrows, start):
    """For each state to which such arrows lead from the start what people do on the shortest way."""
    found = {start: []}
    for state in (order := [start]):
        for arrow in arrows:
            words = acts(arrow)
            if arrow["from"] == state and words is not None and arrow["entered"] and arrow["to"] not in found:
                found[arrow["to"]] = found[state] + words
                order.append(arrow["to"])
    return found


def scenario(arrows, start, arrow, hears):
    """The steps of a scenario that goes over an arrow, and expects there that these hear each other; none where no way is known."""
    before, words = ways(arrows, start).get(arrow["from"]), acts(arrow)
    if before is None or words is None:
        return None
    return f'steps = [{{ do = {json.dumps(before + words)}, state = {json.dumps(arrow["to"])}, hears = {json.dumps(hears)} }}]'
