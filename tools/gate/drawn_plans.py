"""Plans that are drawn by a seed: what users do on the lines of a script, and between that the steps by which messages come to their ends, or do not. Each is
the same each time."""
import json
import random
import tomllib

SYMBOLS = "0123456789EF"
# What follows something that a user does, as often as it stands here.
WAYS = (
    "note|execute|reply",
    "note|execute|reply",
    "note|execute|reply|pass",
    "note|execute|reply|execute|reply",
    "note|execute|reply|execute|reply|pass",
    "timer|execute|reply|pass",
    "timer|execute|execute|reply",
    "note|execute refuse 0|reply|execute|reply",
    "note|execute refuse 1|reply|execute|reply|pass",
    "note|execute|execute 1|execute|reply",
    "note|execute",
    "note",
    "",
    "restart|execute|hear|execute|reply|pass",
    "begin",
)
CHUNKS = 9


def of_user(draw, lines):
    """What a user does on a line."""
    line = draw.choice(lines)
    dials = f"digit {line} {draw.choice(SYMBOLS)}"
    return draw.choice((f"off {line}", f"off {line}", f"on {line}", f"flash {line}", dials, dials, f"pause {line}", f"end {line} cg/rt"))


def steps(draw, lines):
    """The steps of an epoch. A call begins with a line off hook, as most scripts do."""
    found = [f"off {lines[0]}", "note", "execute", "reply"]
    for _ in range(CHUNKS):
        found += [of_user(draw, lines), *draw.choice(WAYS).split("|")]
    return [step for step in found if step]


def plan(seed, script):
    """The plan of a seed for a script."""
    draw = random.Random(seed)
    lines = tomllib.loads(script.decode("utf-8-sig"))["lines"]
    calls, epochs = draw.randint(1, 2), draw.choice((1, 1, 2))
    numbers = draw.sample(range(1, 1000), calls * len(lines))
    found = []
    for call in range(calls):
        of_call = numbers[call * len(lines) :][: len(lines)]
        found.append(f"[[call]]\nlines = {of_call}\nepochs = {json.dumps([steps(draw, lines) for _ in range(epochs)])}\n")
    return "".join(found).encode()
