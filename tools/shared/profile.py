"""The things that this profile names, read off the sources that declare them, and which files of the house name each: commands, events, steps of a plan,
obligations, codes. A thing is named in code and in definitions by its variant, in rows and on pages by the word that is written for it too."""
import functools
import re
from collections import namedtuple

from shared import crates

# Where the things of a kind are declared: a file and an enum. What stands behind the first names the same things by other parts of the house.
DECLARED = {
    "command": (
        ("mg_model/src/items.rt", "Item"),
        ("mg_model/src/commands.rt", "Command"),
        ("requests/src/command.rt", "RequestCommand"),
        ("scriptreader/src/syntax.rt", "WrittenCommand"),
    ),
    "event of a line": (("mg_model/src/line_events.rt", "LineEvent"),),
    "item of an events list": (("mg_model/src/transitions.rt", "EventItem"),),
    "signal": (("mg_names/src/signals.rt", "Signal"),),
    "kind of a note": (("mg_names/src/kinds.rt", "Kind"),),
    "event of a call": (("mg_model/src/events.rt", "CallEvent"),),
    "step of a plan": (("mg_model/src/plans.rt", "PlanStep"),),
    "obligation": (("mg_names/src/obligations.rt", "Obligation"),),
    "code": (("mg_names/src/codes.rt", "Code"),),
    "reason of an idle step": (("taken_steps/src/idle.rt", "Idle"),),
}
# The word that rows, scripts and plans write for a thing, where that isn't its variant in small letters and isn't told by its declaration.
WORDS = {
    "command": {"SubtractAll": "subtract", "SetTopology": "topology"},
    "event of a line": {"Hook": "off", "SignalEnd": "end"},
    "item of an events list": {"OnHook": "al/on", "OffHook": "al/of", "Flash": "al/fl", "Digits": "dd/ce"},
    "step of a plan": {
        "GoesOff": "off", "GoesOn": "on", "Flashes": "flash", "Dials": "digit", "Pauses": "pause", "Ends": "end", "Executes": "execute",
        "TakesReply": "reply", "Passes": "pass", "TakesNote": "note", "TimesOut": "timer", "Hears": "hear", "Begins": "begin", "Restarts": "restart",
    },
}
# Enums that are asked for by their own names too.
ASKED_WHOLE = ("Idle",)
# What finds the word, where it isn't the word alone.
PATTERNS = {"Subtract": r"subtract(?! \S+ \*)", "SubtractAll": r"subtract \S+ \*", "Hook": "(off|on)"}
TOKEN = re.compile(r"[A-Za-z]\w*")
# The parts of the house, in the order in which a change goes through them.
HOUSE = ("definition", "code", "lemma", "answer", "wrong body", "wrong definition", "refused use", "row", "page", "tool")

# A thing: its kind, its variant, the word that is written for it, and what finds that.
Thing = namedtuple("Thing", "kind name word written")
# A file that names a thing: where, which part of the house it is, the first line that names it, and whether it names all things of the kind.
Naming = namedtuple("Naming", "crate part path line has_all")


@functools.cache
def variants(path, enum):
    """The variants of an enum of a crate's file."""
    text = crates.folder(path).read_text()
    body = re.search(rf"^pub enum {enum}(?:<[^>]*>)? \{{\n(.*?)^\}}", text, re.DOTALL | re.MULTILINE)[1]
    return re.findall(r"^    ([A-Z]\w*)", body, re.MULTILINE)


def word_for(kind, place, name):
    """The word that is written for a thing: an obligation's number, the number or the word that its declaration gives it, or its name."""
    path, enum = DECLARED[kind][0]
    if kind == "obligation":
        return f"K{place + 1}"
    if kind in ("code", "signal", "kind of a note"):
        return re.search(rf'{enum}::{name} => "?([^",]+)', crates.folder(path).read_text())[1]
    return WORDS.get(kind, {}).get(name, name.lower())


def written_for(kind, name, word):
    """What finds a word where it stands for a thing: that of a kind of note stands behind a line's name."""
    return rf"\w\.{word}" if kind == "kind of a note" else PATTERNS.get(name, word)


@functools.cache
def things():
    """The things of all kinds, in the order of their declarations."""
    found = []
    for kind, (declared, *_) in DECLARED.items():
        for place, name in enumerate(variants(*declared)):
            word = word_for(kind, place, name)
            found.append(Thing(kind, name, word, written_for(kind, name, word)))
        if declared[1] in ASKED_WHOLE:
            found.append(Thing(kind, declared[1], declared[1].lower(), declared[1].lower()))
    return found


def asked_for(word):
    """The things that a word asks for: their variant, or what is written for them."""
    return [thing for thing in things() if word.lower() in (thing.name.lower(), thing.word.lower())]


@functools.cache
def pattern(thing):
    """What names a thing in code and in definitions: a name that its variant is, or is a part of, as `MoveLine` has `Move`."""
    later = "(?!All)" if thing.name == "Subtract" else ""
    return re.compile(rf"(?<![A-Z]){thing.name}{later}(?![a-z])")


@functools.cache
def text_of(path):
    """The text of a file."""
    return (crates.TOP / path).read_text(errors="replace")


@functools.cache
def is_all(path, kind):
    """Whether a file of code or definitions has each variant of one of the enums in which the things of a kind are declared."""
    tokens = set(TOKEN.findall(text_of(path)))
    return any(tokens.issuperset(variants(*enum)) for enum in DECLARED[kind])


def of_crate(path):
    """The crate and the part of the house of a file of a crate."""
    _, name, folder, *rest = path.parts
    if folder == "proofs":
        return name, "answer" if rest[1:] and rest[0][0].islower() else "lemma"
    return name, {"specs": "definition", "src": "code", "must-fail": "wrong body"}.get(folder)


def place_of(path):
    """The crate of a file, if it is of one, and which part of the house it is; none where things aren't looked for in it."""
    top = path.parts[0]
    if path.suffix == ".md":
        return None, "page"
    if top == "crates":
        return of_crate(path) if path.suffix in (".rt", ".antt", ".edit") else (None, None)
    if top == "wrong" and path.suffix == ".edit":
        return path.parts[1], "wrong body"
    if top == "tests":
        return None, {".rows": "row", ".edit": "wrong definition" if "wrong_models" in path.parts else "refused use"}.get(path.suffix)
    return None, "tool" if top == "tools" else "page" if top == "man" else None


def first_line(text, thing, part):
    """The first line in which a text of this part of the house names a thing; none where it doesn't."""
    word = rf"\b{thing.written}\b"
    if part == "tool":
        written = re.search(word, text) if all(re.search(rf"\b{other.written}\b", text) for other in things() if other.kind == thing.kind) else None
    elif part == "page":
        written = re.search(rf"`[^`\n]*{word}[^`\n]*`", text) if thing.word.islower() else re.search(word, text)
    else:
        written = re.search(word, text) if part == "row" else None
    named = pattern(thing).search(text) if part != "tool" and thing.name in text else None
    found = [place for place in (written, named) if place]
    return text.count("\n", 0, min(place.start() for place in found)) + 1 if found else None


def is_named_for(path, thing):
    """Whether the name of a file, as wrong bodies and rows have them, says the thing."""
    return thing.word.isalpha() and re.search(rf"(^|_){thing.word}(s|d|ed)?(_|$)", path.stem) is not None


def namings(thing, paths):
    """The files among these that name a thing, by the crates in the order of crates.txt, those of no crate last, and by the parts of the house."""
    order, found = [*crates.libraries(), None], []
    for path in paths:
        crate, part = place_of(path)
        if part is None or crate not in order:
            continue
        if line := first_line(text_of(path), thing, part) or (1 if path.suffix == ".edit" and is_named_for(path, thing) else None):
            found.append(Naming(crate, part, path, line, part in HOUSE[:4] and is_all(path, thing.kind)))
    return sorted(found, key=lambda one: (order.index(one.crate), HOUSE.index(one.part), one.path))
