"""Changes of the tree of a script, a certificate or a plan, plans that are made up, and trees written as TOML and as JSON."""
import copy
import json
import math
import re

LIMIT = 4_294_967_295
VALUES = (
    0, 1, 2, -1, 255, 256, 65_535, 65_536, LIMIT, LIMIT + 1, 2**63 - 1, 2**63, 2**64, 2**64 + 1, -(2**63), 1.0, 2.5, True, False, None, "", [], {}, [[]], " ",
)
NAMES = "none armed gone absent a b c e idle done rearm A 1a a-b a.b aaaaaaaaaaaaaaaa aaaaaaaaaaaaaaaaa é".split()
BARE = re.compile("[A-Za-z0-9_-]+")
MODES = ["Inactive", "SendOnly", "ReceiveOnly", "SendReceive"]
SETS = {"link": ["sent", "ok", "fault", "rest"], "mode": MODES, "plays": ["no", "may"], "events": ["none", "armed"], "remote": ["none", "gone"]}
# How a call goes on, with how often each is drawn.
STEPS = {
    "note": 16, "execute": 16, "reply": 16, "pass": 8, "off": 8, "on": 6, "timer": 3, "hear": 3, "digit": 3, "flash": 2, "pause": 2, "end": 2,
    "begin": 3, "execute refuse": 3, "numbered": 4, "restart": 1,
}
PARTS = ("lines", "contexts")
SIGNALS = ("al/ri", "cg/dt", "cg/rt", "cg/bt", "cg/ct")


def quoted(text):
    """A text between quotes, as TOML and JSON both read it; a lone surrogate stays one."""
    return json.dumps(text, ensure_ascii=any(0xD7FF < ord(character) < 0xE000 for character in text)).replace("\x7f", "\\u007f")


def toml_value(value):
    """A value written in one line."""
    if isinstance(value, bool):
        return "true" if value else "false"
    if isinstance(value, (int, str)):
        return quoted(value) if isinstance(value, str) else str(value)
    if isinstance(value, float):
        return str(value) if math.isfinite(value) else ("nan" if math.isnan(value) else "inf")
    if isinstance(value, list):
        return "[" + ", ".join(map(toml_value, value)) + "]"
    if isinstance(value, dict):
        return "{" + ", ".join(f"{toml_key(key)} = {toml_value(item)}" for key, item in value.items()) + "}"
    return "{}" if value is None else value.isoformat()


def toml_key(key):
    """A key, in quotes where it needs them."""
    return key if BARE.fullmatch(key) else quoted(key)


def toml_text(tree):
    """A tree as TOML, a key of its top in a line. What isn't a table is written as a table with it."""
    table = tree if isinstance(tree, dict) else {"call": tree}
    return "".join(f"{toml_key(key)} = {toml_value(value)}\n" for key, value in table.items()).encode(errors="replace")


def json_text(tree):
    """A tree as JSON."""
    return (json.dumps(tree, ensure_ascii=False, default=str) + "\n").encode(errors="replace")


def spots(tree):
    """Each place in a tree, as what holds it and its key or number there."""
    keys = list(tree.items() if isinstance(tree, dict) else enumerate(tree))
    for key, value in keys:
        yield tree, key
        if isinstance(value, (dict, list)):
            yield from spots(value)


def value_for(draw, tree, others):
    """A value to put somewhere: one of a limit, a word, or one that stands somewhere in this tree or another."""
    kind = draw.randrange(4)
    if kind == 0:
        return draw.choice(VALUES)
    if kind == 1:
        return draw.choice(NAMES)
    held = list(spots(draw.choice([tree, *others])))
    if not held:
        return "a"
    holder, key = draw.choice(held)
    return copy.deepcopy(holder[key])


def with_fresh_name(value, number):
    """A copy that has another name, and other lines, than the one it is of."""
    value = copy.deepcopy(value)
    if isinstance(value, dict) and isinstance(value.get("name"), str):
        value["name"] = f"n{number}"
    if isinstance(value, dict) and isinstance(value.get("epochs"), list) and isinstance(value.get("lines"), list):
        value["lines"] = [1_000_000 + number * 8 + place for place in range(len(value["lines"]))]
    return f"n{number}" if isinstance(value, str) and re.fullmatch("[a-z][a-z0-9_]*", value) else value


def grow(draw, holder, key):
    """A list with one item so often that it comes to a limit, or one past it; fewer calls, each of which has many steps."""
    items = holder[key]
    if not isinstance(items, list) or not items:
        return
    item = draw.choice(items)
    is_call = isinstance(item, dict) and "epochs" in item
    wanted = draw.choice((2, 16, 17, 64)) if is_call else draw.choice((4, 5, 16, 17, 64, 65, 256, 257, 999, 1000, 1001))
    fresh = draw.random() < 0.8
    items += [with_fresh_name(item, number) if fresh else copy.deepcopy(item) for number in range(wanted - len(items))]


def spread(draw, holder, key):
    """A component of an entry with all the words that it may have, or with some, or none."""
    if isinstance(holder, dict) and isinstance(key, str):
        words = SETS.get(key, ["free", "live", "stale"] if len(key) < 3 else ["no", "yes"])
        holder[key] = draw.choice((words, draw.sample(words, draw.randrange(len(words)))))


def widen(held, entry):
    """An entry with all values of all components of the lines, contexts and pairs that entries of the tree speak of."""
    named = {part: sorted({name for holder, key in held if key == part and isinstance(holder[key], dict) for name in holder[key]}) for part in PARTS}
    every = {part: SETS[part] for part in ("mode", "plays", "events")} | {"at": ["-", *named["contexts"]]}
    entry |= {"link": SETS["link"], "lines": {line: every for line in named["lines"]}}
    entry["contexts"] = {context: ["free", "live", "stale"] for context in named["contexts"]}
    entry["cuts"] = {f"{one}>{other}": ["no", "yes"] for one in named["lines"] for other in named["lines"] if one != other}


def extend(draw, held, state):
    """A state with a key more, or a command more that is one of the tree turned round: what it creates, or where, is subtracted."""
    names = [holder[key] for holder, key in held if key in ("start", "restart", "ok", "fault", "timer") and isinstance(holder[key], str)] or ["idle"]
    state[draw.choice(("end", "ok", "fault", "timer"))] = draw.choice(names)
    if draw.random() < 0.3:
        state["end"] = True
    commands = [holder[key] for holder, key in held if isinstance(holder[key], str) and holder[key].startswith("add ")]
    if commands and isinstance(state.get("do"), list) and draw.random() < 0.6:
        words = draw.choice([command for command in state["do"] if isinstance(command, str) and command.startswith("add ")] or commands).split()
        context, added = (word.lstrip("$") for word in [*words, "c", "c"][1:3])
        state["do"].insert(draw.randrange(len(state["do"]) + 1), draw.choice((f"subtract {context} *", f"subtract {context} {added}")))


def telling(draw, held):
    """A change that a rule of a format speaks of."""
    tables = [holder[key] for holder, key in held if isinstance(holder[key], dict)]
    entries, states = ([table for table in tables if key in table] for key in ("link", "name"))
    lists = [(holder, key) for holder, key in held if isinstance(holder[key], list) and isinstance(key, str)]
    if entries:
        widen(held, draw.choice(entries)) if draw.random() < 0.5 else spread(draw, *draw.choice(lists))
    elif states and draw.random() < 0.7:
        extend(draw, held, draw.choice(states))
    elif calls := [table for table in tables if isinstance(table.get("epochs"), list)]:
        epochs = draw.choice(calls)["epochs"]
        grow(draw, {"epochs": epochs}, "epochs") if draw.random() < 0.5 or not epochs else grow(draw, dict(enumerate(epochs)), draw.randrange(len(epochs)))


def move(draw, tree, holder, key):
    """What stands at a place, put somewhere else."""
    value = holder.pop(key)
    others = [(other, at) for other, at in spots(tree) if type(other) is type(holder)]
    if isinstance(holder, list):
        target = draw.choice(others)[0] if others else holder
        target.insert(draw.randrange(len(target) + 1), value)
    else:
        target, at = draw.choice(others) if others else (holder, key)
        target[draw.choice((key, at))] = value


def alike(draw, held, holder, key):
    """Another value of the same kind in a place: one that stands under the same key, or any of the tree, so that a document keeps its shape; a number
    most often becomes the next one."""
    same = [other[at] for other, at in held if type(other[at]) is type(holder[key])]
    under = [other[at] for other, at in held if at == key and type(other[at]) is type(holder[key])]
    if isinstance(holder[key], int) and draw.random() < 0.7:
        holder[key] = (not holder[key]) if isinstance(holder[key], bool) else holder[key] + draw.choice((-1, 1))
    else:
        holder[key] = copy.deepcopy(draw.choice(under if isinstance(key, str) and draw.random() < 0.7 else same))


def aimed(draw, held):
    """A place to change: any, or one of a key that is drawn first, so that keys that are seldom there are drawn as often as others."""
    keys = sorted({key for _, key in held if isinstance(key, str)})
    if not keys or draw.random() < 0.4:
        return draw.choice(held)
    wanted = draw.choice(keys)
    return draw.choice([(holder, key) for holder, key in held if key == wanted])


def once(draw, tree, others):
    """One change in a tree."""
    held = list(spots(tree))
    if not held:
        return
    holder, key = aimed(draw, held)
    kind = draw.randrange(16)
    if kind == 0:
        holder.pop(key)
    elif kind == 1 and isinstance(holder, list):
        holder.insert(draw.randrange(len(holder) + 1), copy.deepcopy(holder[key]))
    elif kind in (1, 2) and isinstance(holder, dict):
        holder[draw.choice([*NAMES, *(str(at) for _, at in held)])] = copy.deepcopy(holder[key]) if kind == 1 else holder.pop(key)
    elif kind == 3:
        move(draw, tree, holder, key)
    elif kind == 4:
        holder[key] = draw.choice(([holder[key]], {"a": holder[key]}))
    elif kind in (5, 6):
        grow(draw, *aimed(draw, [(other, at) for other, at in held if isinstance(other[at], list)] or [(holder, key)]))
    elif kind == 7:
        spread(draw, *aimed(draw, [(other, at) for other, at in held if isinstance(other, dict)] or [(holder, key)]))
    elif kind == 8:
        holder[key] = value_for(draw, tree, others)
    elif kind == 9 and isinstance(holder[key], list):
        draw.shuffle(holder[key])
    elif kind in (10, 11, 12):
        telling(draw, held)
    else:
        alike(draw, held, holder, key)


def changed(draw, tree, others):
    """A tree with one change or a few."""
    tree = copy.deepcopy(tree)
    for _ in range(draw.choice((1, 1, 1, 2, 3))):
        if isinstance(tree, (dict, list)):
            once(draw, tree, others)
    return tree


def step(draw, lines):
    """A step of a call, of which few are sure to happen."""
    word = draw.choices(list(STEPS), STEPS.values())[0]
    line = draw.choice(lines)
    if word in ("off", "on", "flash", "pause"):
        return f"{word} {line}"
    if word == "digit":
        return f"digit {line} {draw.choice('0123456789EF')}"
    if word == "end":
        return f"end {line} {draw.choice(SIGNALS)}"
    if word == "execute refuse":
        return f"execute refuse {draw.choice((0, 0, 1, 2, 15, 16, 255))}"
    if word == "numbered":
        return f"{draw.choice(('execute', 'reply', 'note'))} {draw.choice((1, 1, 2, 2, 3, 4, 9, LIMIT))}"
    return word


def plan(draw, lines):
    """A plan for a script with these lines: calls on lines of their own, steps that most often can happen, some restarts."""
    if not isinstance(lines, list) or not all(isinstance(line, str) for line in lines) or not lines:
        lines = ["a", "b"]
    count = draw.choice((0, 1, 1, 2, 3, 8, 40))
    numbers = draw.sample([*range(1, 200), *range(LIMIT - 99, LIMIT + 1)], count * len(lines)) if count * len(lines) < 250 else range(1, count * len(lines) + 1)
    restarts = draw.random() < 0.3
    calls = []
    for place in range(count):
        epochs = [[step(draw, lines) for _ in range(draw.choice((0, 3, 12, 40)))] for _ in range(draw.choice((0, 1, 1, 1, 2, 3, 16)))]
        kept = epochs if restarts else [[step for step in epoch if step != "restart"] for epoch in epochs]
        calls.append({"lines": list(numbers[place * len(lines) : (place + 1) * len(lines)]), "epochs": kept})
    return draw.choice(({}, {}, {"shards": draw.choice((1, 2, 3, 16))})) | ({"call": calls} if calls or draw.random() < 0.5 else {})
