"""Drafting by asking about the whole certificate from No to No, and by putting in what the answer says: what `shared/fronts.py` has to come to by small
questions, and how parts of the gate follow what is said."""
import itertools
import json

from shared import certificates
from shared.fronts import Followed, alone, lacking


def followed(page_of, entries, put, most=None):
    """Does what is said from No to No, from these entries on: until a page says nothing to put in, or what was put in for that same configuration before,
    or until `put` finds no room and gives None, or so many were put in."""
    seen = set()
    for count in itertools.count():
        page = page_of(entries)
        wanting = json.dumps(lacking(page))
        is_again = "entry" in page and wanting in seen
        if "entry" not in page or is_again or count == most:
            return Followed(page, entries, count, is_again, False)
        seen.add(wanting)
        more = put(entries, page)
        if more is None:
            return Followed(page, entries, count, False, True)
        entries = more


def exactly(script, is_wide, entries, page):
    """Entries with the configuration of a page put in, and no other beside it: in the place of the entry that it widens where that gets no other one, else
    behind the last. Where its state has all the entries that it may have, entries are joined if that is asked for; None where there is no room."""
    place, wider = page.get("widens"), certificates.normal(script, certificates.of_facts(script, page["entry"]))
    if place is not None and size(script, wider) == size(script, entries[place]) + 1:
        return [*entries[:place], wider, *entries[place + 1 :]]
    new = alone(script, lacking(page))
    if has_room(entries, new["state"]):
        return [*entries, new]
    fewer = certificates.joined(script, entries) if is_wide else entries
    return [*fewer, new] if has_room(fewer, new["state"]) else None


def size(script, entry):
    """How many points an entry has, well formed or not."""
    return certificates.product(certificates.sets(script, entry))


def has_room(entries, state):
    """Whether a state may have another entry."""
    return sum(entry["state"] == state for entry in entries) < certificates.ENTRIES
