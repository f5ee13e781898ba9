"""What Erlang's megaco decoded, taken apart into values: which message it is, of which end, with which number, and its commands in their order. A record that
has anything beside what the profile has is a `ValueError`, so that nothing is passed over. It knows nothing of how messages are written."""
import re

NO = "asn1_NOVALUE"
# The ContextIDs that mean something by themselves (H.248.1 section 8.1.2).
CONTEXTS = {0: "-", 0xFFFFFFFE: "$", 0xFFFFFFFF: "*"}
MODES = {"sendRecv": "SendReceive", "sendOnly": "SendOnly", "recvOnly": "ReceiveOnly", "inactive": "Inactive"}
VERBS = {"addReq": "add", "modReq": "modify", "moveReq": "move", "addReply": "add", "modReply": "modify", "moveReply": "move", "subtractReply": "subtract"}


def text(numbers):
    """A text that Erlang has as a list of its characters."""
    return "".join(map(chr, numbers))


def context(number):
    return CONTEXTS.get(number, str(number))


def termination(value):
    match value:
        case ("megaco_term_id", _, parts):
            return "/".join(map(text, parts))
    raise ValueError(f"a termination: {value}")


def alternatives(written):
    """A digit map as a list of its alternatives, each a list of the symbols that its positions take."""
    body = re.sub(r"[\s()]", "", written).upper()
    return [[symbols(position) for position in re.findall(r"\[[^]]*\]|.", alternative)] for alternative in body.split("|")]


def symbols(position):
    """The symbols that a position takes."""
    if position == "X":
        return frozenset("0123456789")
    found = set()
    for low, high in re.findall(r"([0-9EF])(?:-([0-9]))?", position):
        found.update("0123456789"[int(low) : int(high) + 1] if high else low)
    return frozenset(found)


def far_end(remote):
    """The ephemeral that a session description names, None where it is empty."""
    if remote == []:
        return None
    [group] = remote
    lines = [(text(name), text(value)) for _, name, [value], _ in group]
    if [name for name, _ in lines] != ["v", "c", "m", "a"] or not lines[3][1].startswith("X-termination:"):
        raise ValueError(f"a session description: {lines}")
    return lines[3][1].partition(":")[2]


def media(streams):
    """What a Media descriptor sets."""
    found = {}
    match streams:
        case ("oneStream", ("StreamParms", control, "asn1_NOVALUE", remote)):
            if control != NO:
                _, mode, *others = control
                found["mode"] = MODES[mode]
                if others != [NO, NO, []]:
                    raise ValueError(f"a LocalControl descriptor: {control}")
            if remote != NO:
                found["remote"] = far_end(remote[1])
            return found
    raise ValueError(f"streams: {streams}")


def requested(event):
    """An event of an Events descriptor, with its parameter or its digit map."""
    match event:
        case ("RequestedEvent", name, "asn1_NOVALUE", "asn1_NOVALUE", []):
            return text(name), None
        case ("RequestedEvent", name, "asn1_NOVALUE", "asn1_NOVALUE", [("EventParameter", parameter, [value], "asn1_NOVALUE")]) if text(parameter) == "strict":
            return text(name), text(value)
        case ("RequestedEvent", name, "asn1_NOVALUE", ("RequestedActions", "asn1_NOVALUE", ("digitMapName", of), "asn1_NOVALUE", "asn1_NOVALUE"), []):
            return text(name), text(of)
    raise ValueError(f"an event: {event}")


def signal(value):
    match value:
        case ("signal", ("Signal", name, "asn1_NOVALUE", "asn1_NOVALUE", "asn1_NOVALUE", "asn1_NOVALUE", "asn1_NOVALUE", [])):
            return text(name)
    raise ValueError(f"a signal: {value}")


def settings(descriptors):
    """What the descriptors of a command set."""
    found = {}
    for descriptor in descriptors:
        match descriptor:
            case ("mediaDescriptor", ("MediaDescriptor", "asn1_NOVALUE", streams)):
                found |= media(streams)
            case ("digitMapDescriptor", ("DigitMapDescriptor", name, ("DigitMapValue", "asn1_NOVALUE", "asn1_NOVALUE", "asn1_NOVALUE", body))):
                found.setdefault("maps", {})[text(name)] = alternatives(text(body))
            case ("eventsDescriptor", ("EventsDescriptor", number, items)):
                found["events"] = (None if number == NO else number, [*map(requested, items)])
            case ("signalsDescriptor", items):
                found["signals"] = [*map(signal, items)]
            case _:
                raise ValueError(f"a descriptor: {descriptor}")
    return found


def command(value):
    """A command of a request: its word, its termination, and what it sets."""
    match value:
        case ("CommandRequest", (verb, ("AmmRequest", [of], descriptors)), "asn1_NOVALUE", "asn1_NOVALUE"):
            return VERBS[verb], termination(of), settings(descriptors)
        case ("CommandRequest", ("subtractReq", ("SubtractRequest", [of], "asn1_NOVALUE")), "asn1_NOVALUE", "asn1_NOVALUE"):
            return "subtract", termination(of), {}
    raise ValueError(f"a command: {value}")


def topologies(properties):
    """The topologies of an action."""
    match properties:
        case "asn1_NOVALUE":
            return []
        case ("ContextRequest", "asn1_NOVALUE", "asn1_NOVALUE", triples):
            return [("topology", termination(one), termination(other), word) for _, one, other, word in triples]
    raise ValueError(f"properties of a context: {properties}")


def of_request(actions):
    """The commands of a request, each with its context and whether it is the first one of an action."""
    found = []
    for value in actions:
        match value:
            case ("ActionRequest", number, properties, "asn1_NOVALUE", commands):
                parts = [*topologies(properties), *map(command, commands)]
                found += [(context(number), place == 0, *part) for place, part in enumerate(parts)]
            case _:
                raise ValueError(f"an action: {value}")
    return found


def result(value):
    """A command of a reply."""
    match value:
        case (verb, ("AmmsReply", [of], "asn1_NOVALUE")):
            return VERBS[verb], termination(of)
    raise ValueError(f"a result: {value}")


def of_reply(actions):
    """The results of a reply, each with its context, and the error behind them."""
    found = []
    for value in actions:
        match value:
            case ("ActionReply", number, error, properties, commands):
                parts = [*topologies(properties), *map(result, commands), *([] if error == NO else [("error", error[1])])]
                found += [(context(number), *part) for part in parts]
            case _:
                raise ValueError(f"an action: {value}")
    return found


def observed(event):
    """An event that was observed, with its parameters."""
    match event:
        case ("ObservedEvent", name, "asn1_NOVALUE", given, "asn1_NOVALUE"):
            return text(name), {text(key): text(value) for _, key, [value], _ in given}
    raise ValueError(f"an event: {event}")


def of_gateway(actions):
    """A request of the gateway: a Notify or a ServiceChange."""
    match actions:
        case [("ActionRequest", number, "asn1_NOVALUE", "asn1_NOVALUE", [("CommandRequest", sent, "asn1_NOVALUE", "asn1_NOVALUE")])]:
            match sent:
                case ("notifyReq", ("NotifyRequest", [of], ("ObservedEventsDescriptor", raised_by, [event]), "asn1_NOVALUE")):
                    return "notify", context(number), termination(of), raised_by, *observed(event)
                case ("serviceChangeReq", ("ServiceChangeRequest", [of], ("ServiceChangeParm", method, *others))):
                    reasons = [text(one) for [one] in (other for other in others if other != NO)]
                    return "restart", context(number), termination(of), method, reasons
    raise ValueError(f"a request of the gateway: {actions}")


def taken(message):
    """A message that was decoded: the address of its end, its number, and what it is."""
    match message:
        case ("MegacoMessage", "asn1_NOVALUE", ("Message", 1, ("ip4Address", ("IP4Address", address, 2944)), ("transactions", [transaction]))):
            end = ".".join(map(str, address))
            match transaction:
                case ("transactionRequest", ("TransactionRequest", number, actions)):
                    is_gateways = end == "127.0.0.2"
                    return (end, number, *of_gateway(actions)) if is_gateways else (end, number, "request", of_request(actions))
                case ("transactionReply", ("TransactionReply", number, "asn1_NOVALUE", ("actionReplies", actions))):
                    return end, number, "reply", of_reply(actions)
    raise ValueError(f"a message: {message}")
