"""What is said where a document isn't read, or a run has no report: what the format asks, and each mistake of the documents. It is installed too, so it
knows nothing of this repository."""
from shared.mistakes import findings, told

# What a document, an input or a run has to be for it not to have a fault, by what has it and the fault's name.
RULES = {
    "input": {
        "Sections": (
            "The input is a script and a certificate, and perhaps a plan, each divided from the next by a line that is exactly `%%`, with no other such "
            "line."
        ),
        "TooLong": "The input has at most 16,777,216 bytes.",
    },
    "script": {
        "NotToml": "A script is a TOML document.",
        "BadKey": (
            "A script has the keys of the format and no others, each with a value of its kind, each text in one of the format's forms, and at least two "
            "lines."
        ),
        "BadName": (
            "A name that is declared has 1 to 16 lower-case letters, digits and `_`, the first a letter, and is not `none`, `armed`, `gone` or "
            "`absent`."
        ),
        "Duplicate": (
            "A name is declared once in its name space, an event or a signal stands once in a list, a pair and a topology have two names, and a state "
            "creates a name once."
        ),
        "Unknown": (
            "A name is declared as what its place asks for: a state as a target, a line for `events=` and `signals=`, an ephemeral for `remote=`, and "
            "so on."
        ),
        "BadMap": "A digit map is one alternative or more, at most 16 of at most 16 positions: digits, `E`, `F`, `x` and ranges in brackets.",
        "NoStart": "`start` names the state that a call opens in.",
        "NoRestart": "`restart` names the state that a call enters when it hears that the gateway restarted.",
        "NoFault": "A state with commands has `fault`: where a reply with a failed command leads.",
        "OkWithoutActions": "A state without commands has no `ok` and no `fault`.",
        "EndWithTransitions": "An end state has no commands and leads nowhere.",
        "MadeAndSubtracted": "A state doesn't create an ephemeral and subtract it, nor a context and subtract all of it.",
        "TooMany": (
            "A script has at most 4 lines, 4 contexts, 4 ephemerals and 64 states, 16 commands in a state, and 16 each of events lists, signals lists "
            "and maps."
        ),
    },
    "certificate": {
        "NotJson": "A certificate is a JSON text in UTF-8.",
        "BadKey": "A certificate has the keys of the format and no others, those that are needed, each with a value of its kind, and the version 2.",
        "Unknown": "Each state, name and word of a certificate is known in its place: the script declares it, or the format's table has it.",
        "EmptySet": "The list of a component has a value.",
        "TooManyEntries": "A state has at most 256 entries.",
        "TooManyPoints": "The product of an entry's lists is at most 65,536.",
        "OldVersion": "The version of a certificate is 2; version 1 did not ask that names stand for what exists.",
    },
    "plan": {
        "NotToml": "A plan is a TOML document in UTF-8.",
        "BadStep": (
            "A plan has the keys `call` and `shards` and no others, a call `lines` and `epochs`: as many lines of the gateway as the script has lines, "
            "none of them twice in a plan, and epochs of steps in one of the format's forms."
        ),
        "TooMany": "A call of a plan has at most 16 epochs, and at most 1,000 steps over all of them.",
    },
    "run": {
        "BadWorkers": "A run has 1 to 64 workers.",
        "TooManyCalls": "A plan has at most 10,000 calls.",
        "Disagree": "What the gateways keep of a run is what its calls went through, and here it isn't.",
    },
}
DOCUMENTS = ("script", "certificate", "plan")
HEAD = "What is wrong, by line and column, which count from 1, columns in bytes:"


def place(mistake):
    """The line on a mistake."""
    return f"- {mistake.document}, line {mistake.at_line}, column {mistake.at_column}: {findings.sentence(mistake)}"


def mistakes(texts):
    """The lines on the mistakes of documents, in the order of these."""
    return [place(mistake) for mistake in told.mistakes(dict(zip(DOCUMENTS, texts)))]


def paragraphs(page, texts):
    """What is said of a fault, paragraph by paragraph, each a list of lines."""
    fault = page["fault"]
    yield [RULES[fault["of"]][fault["fault_name"]]]
    lines = [] if fault["of"] == "run" else mistakes(texts)
    if lines:
        yield [HEAD, *lines]
