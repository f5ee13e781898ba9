"""Certificates as objects: the components of an entry in the order in which points are numbered, entries laid out as the stored certificates are, and entries
joined where that adds no configuration. It is installed too, so it knows nothing of this repository."""
import itertools
import json
import math

LINKS = ["sent", "ok", "fault", "rest"]
MODES = ["Inactive", "SendOnly", "ReceiveOnly", "SendReceive"]
# How many entries a state may have, and how large the product of one may be.
ENTRIES, PRODUCT = 256, 65_536


def components(script, entry):
    """The components of an entry in the order in which points are numbered: path, the values that it lists, all values in their order, and the
    value where it is left out."""
    contexts, ephemerals = script.get("contexts", []), script.get("ephemerals", [])
    lists = ["none", "armed", *(each["name"] for each in script.get("events", []))]
    yield "link", entry.get("link"), LINKS, None
    for line in script["lines"]:
        of = entry.get("lines", {}).get(line, {})
        yield f"lines.{line}.at", of.get("at"), ["-", *contexts], "-"
        yield f"lines.{line}.mode", of.get("mode"), MODES, "Inactive"
        yield f"lines.{line}.events", of.get("events"), lists, "armed"
        yield f"lines.{line}.plays", of.get("plays"), ["no", "may"], "no"
    for context in contexts:
        yield f"contexts.{context}", entry.get("contexts", {}).get(context), ["free", "live", "stale"], "free"
    for name in ephemerals:
        of = entry.get("ephemerals", {}).get(name, {})
        yield f"ephemerals.{name}.at", of.get("at"), ["absent", *contexts], "absent"
        yield f"ephemerals.{name}.mode", of.get("mode"), MODES, "Inactive"
        yield f"ephemerals.{name}.remote", of.get("remote"), ["none", "gone", *ephemerals], "none"
    for first, second in itertools.permutations([*script["lines"], *ephemerals], 2):
        yield f"cuts.{first}>{second}", entry.get("cuts", {}).get(f"{first}>{second}"), ["no", "yes"], "no"


def sets(script, entry):
    """The values that an entry has of each component, in their order, by its path."""
    return {path: [value for value in order if value in (listed or [default])] for path, listed, order, default in components(script, entry)}


def product(values):
    """How many points an entry of these sets has, well formed or not."""
    return math.prod(map(len, values.values()))


def laid_out(script, state, values):
    """The entry of a state with these sets: its keys and values in their order, and what has its default alone left out."""
    entry = {"state": state}
    for path, _, _, default in components(script, {}):
        *above, last = path.split(".")
        place = entry
        if values[path] != [default]:
            for key in above:
                place = place.setdefault(key, {})
            place[last] = values[path]
    return entry


def normal(script, entry):
    """An entry as the stored certificates have it."""
    return laid_out(script, entry["state"], sets(script, entry))


def of_facts(script, told):
    """An entry as `mgexplain` tells it, with each component, as a certificate has it."""
    return laid_out(script, told["state"], {part["component"]: part["has"] for part in told["parts"]})


def link(told):
    """The link of a configuration as `mgexplain` tells it."""
    return next(part["value"] for part in told["parts"] if part["component"] == "link")


def row(entry):
    """An entry as a certificate has it in a line."""
    return json.dumps(entry, separators=(",", ":"))


def of_rows(rows):
    """A certificate of entries that are written."""
    written = ",\n".join(rows)
    return f'{{"version":2,"entries":[\n{written}{chr(10) if written else ""}]}}\n'


def text(entries):
    """A certificate of these entries, one a line."""
    return of_rows(map(row, entries))


def joined_in(path, order, rows):
    """States with sets, those joined that differ in this component alone, as far as a product may go."""
    found = {}
    for state, values in rows:
        key = (state, *(tuple(listed) for other, listed in values.items() if other != path))
        before = found.get(key, (state, values))[1]
        both = {**values, path: [value for value in order if value in before[path] or value in values[path]]}
        fits = product(both) <= PRODUCT
        found[key if fits else (key, len(found))] = (state, both if fits else values)
    return [*found.values()]


def joined(script, entries):
    """Entries of which two of a state are joined where they differ in one component alone, until no two do. Together they have the configurations that they
    had, and no other."""
    rows = [(entry["state"], sets(script, entry)) for entry in entries]
    before = None
    while before != len(rows):
        before = len(rows)
        for path, _, order, _ in components(script, {}):
            rows = joined_in(path, order, rows)
    return [laid_out(script, state, values) for state, values in rows]
