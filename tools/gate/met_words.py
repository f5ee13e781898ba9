"""Which commands, events, signals, kinds of notes, codes and fates the messages of a run have, as words, and all that there are."""

# All of them.
ALL = (
    {"add", "modify", "move", "subtract", "isolate", "oneway", "bothway", "restart"}
    | {"al/ri", "cg/dt", "cg/rt", "cg/bt", "cg/ct", "al/on", "al/of", "al/fl", "dd/ce", "strict=exact", "strict=state"}
    | {"Inactive", "SendOnly", "ReceiveOnly", "SendReceive", "a Remote", "no Remote", "no events", "no signals", "Subtract of all"}
    | {"note al/on", "note al/of", "note al/fl", "note um", "note fm", "note pm", "411", "430", "433", "435", "500", "510"}
    | {"executed", "answered by the kept reply", "discarded", "lost", "taken", "heard"}
)


def of(wanted):
    """The words of what a message has."""
    (value, (fate, _)), found = wanted, set()
    match value:
        case (_, _, "request", parts):
            for _, _, verb, termination, *more in parts:
                found |= {more[1]} if verb == "topology" else {verb, *of_sets(more[0]), *(["Subtract of all"] if termination == "*" else [])}
        case (_, _, "reply", parts):
            found |= {str(part[2]) for part in parts if part[1] == "error"}
        case (_, _, "notify", *_, event, parameters):
            found.add(f"note {parameters.get('meth', event)}")
        case (_, _, "restart", *_):
            found.add("restart")
    return found | {fate}


def of_sets(sets):
    """The words of what a command sets."""
    items = sets.get("events", (None, []))[1]
    found = {sets.get("mode"), *sets.get("signals", []), *(name for name, _ in items), *(f"strict={value}" for name, value in items if name.startswith("al/"))}
    found |= {"no Remote" if sets["remote"] is None else "a Remote"} if "remote" in sets else set()
    return found | {f"no {key}" for key in ("events", "signals") if key in sets and not (items if key == "events" else sets[key])}
