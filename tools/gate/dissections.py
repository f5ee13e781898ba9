"""What tshark says of a message, compared with the message as a value: its number, terminations, modes, RequestIDs, events, signals, codes and contexts, in
their order. It knows nothing of how messages are written."""
import itertools
import re


def labels(value):
    """What tshark should find in a message, apart from contexts."""
    match value:
        case (_, number, "request", parts):
            found = [label for part in parts for label in of_command(*part[2:])]
        case (_, number, "reply", parts):
            found = [label for part in parts for label in (of_command(*part[1:]) if part[1] != "error" else [("ERROR Code", str(part[2]))])]
        case (_, number, "notify", _, termination, raised_by, event, _):
            found = [("Termination ID", termination), ("RequestID", str(raised_by)), ("pkgdName", event)]
        case (_, number, "restart", _, termination, *_):
            found = [("Termination ID", termination.upper())]
    return [("Transaction", "Reply" if value[2] == "reply" else "Request"), ("Transaction ID", str(number)), *found]


def of_command(verb, termination, *more):
    """What tshark should find in a command."""
    if verb == "topology":
        return [("Topology Descriptor", f"{termination}, {more[0]}, {more[1].capitalize()}")]
    sets = more[0] if more else {}
    raised_by, items = sets.get("events", (None, []))
    found = [("Mode", sets["mode"])] if "mode" in sets else []
    found += [("RequestID", str(raised_by))] if raised_by is not None else []
    return [("Termination ID", termination), *found, *(("pkgdName", name) for name in [*(name for name, _ in items), *sets.get("signals", [])])]


def contexts(value):
    """The contexts of a message, one behind the other."""
    return [value[3]] if value[2] in ("notify", "restart") else [part[0] for part in value[3]]


def by_tshark(label, text):
    """A text that tshark says, as it stands in the message."""
    if label == "Context":
        return {"Choose one": "$", "NULL": "-"}.get(text) or str(int(text) % 2**32)
    if label == "ERROR Code":
        return re.search(r"\((\d+)\)", text)[1]
    return {"WildCard any": "$", "WildCard all": "*"}.get(text, text)


def once(texts):
    """Texts without those that are like the one before them."""
    return [text for text, _ in itertools.groupby(texts)]


def misread(wanted, dissected):
    """What is wrong with what tshark says of a message; nothing where it is what is wanted."""
    if dissected.errors:
        return "; ".join(dissected.errors)
    said = [(label, by_tshark(label, text)) for label, text in dissected.found]
    found = [one for one in said if one[0] != "Context"]
    where = once(text for label, text in said if label == "Context")
    if found != labels(wanted):
        return f"{found} in place of {labels(wanted)}"
    return None if where == once(contexts(wanted)) else f"contexts {where} in place of {once(contexts(wanted))}"
