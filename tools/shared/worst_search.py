"""A search at random over inputs of `mgcall check` for the one that takes most of the time that the plain checker takes for it. Inputs are shapes of
`vain_checks` with parameters that are drawn, or those that the bench measures; from one that is bad those go on that differ from it in one parameter. Trials
are judged by processor time, the best ones at the end by instructions. Each trial compares the lines of both programs, and a difference ends the search."""
import functools
import itertools
import json
import random
import resource
import signal
import subprocess
import tempfile
import time
from dataclasses import dataclass
from pathlib import Path

from shared import adversary, check_costs, checks, measuring, vain_checks
from shared.certificates import MODES
from shared.vain_checks import CONTEXTS, EPHEMERALS, LINES, LISTS, Resting, Shape, others, remote, spot

OUT = Path(__file__).resolve().parents[2] / "out/bench"
# What processor time says is rough by this much, in seconds. So short trials say little, and larger ones are found to be worse.
ROUGH = 0.002
# A trial that takes longer is ended, and judged as if it had taken so long; in seconds of a processor.
LONGEST = 5
# How many numbers the entries of a trial have together, at first and at most; and so many trials that are no worse begin anew.
FIRST_NUMBERS, MOST_NUMBERS, PATIENCE = 70_000, 600_000, 25
# How many of the worst are judged by instructions.
KEPT = 3

# What each component may have besides its first value, which is fixed.
TURNS = {
    **{f"lines.{line}.at": [["c", "d"], ["-", "c", "d"], ["-", *CONTEXTS]] for line in "gh"},
    "lines.b.at": [["-", "d"], ["d", "e"]],
    **{f"lines.{line}.mode": [MODES[:2], MODES] for line in LINES},
    **{f"lines.{line}.events": [LISTS[:2], LISTS[:4], LISTS[:15]] for line in "bgh"},
    **{f"lines.{line}.plays": [["no", "may"]] for line in LINES},
    **{f"contexts.{name}": [["free", "live"]] for name in CONTEXTS},
    **{spot(name): [["c", "d"], ["absent", "c"], ["absent", "c", "d"], ["absent", *CONTEXTS]] for name in EPHEMERALS},
    **{f"ephemerals.{name}.mode": [MODES[3:], MODES] for name in EPHEMERALS},
    **{remote(name): [others(name)[:2], others(name)] for name in EPHEMERALS},
    **{f"cuts.{pair}": [["no", "yes"]] for pair in ("g>h", "h>g", "w>z")},
}
# Kinds of commands: what the command with a number is, and what has to be turned so that it doesn't lead out of that.
COMMANDS = {
    "alike": (lambda n: "modify c a mode=Inactive", {}),
    "modes": (lambda n: f"modify c a mode={MODES[n % 4]}", {"lines.a.mode": MODES}),
    "settings": (lambda n: f"modify c a mode={MODES[n % 4]} events={LISTS[n % 3]}", {"lines.a.mode": MODES, "lines.a.events": LISTS[:3]}),
    "remotes": (lambda n: f"modify c w remote={others('w')[n % 4]}", {remote("w"): others("w")}),
    "sought": (lambda n: f"modify c g mode={MODES[n % 4]}", {"lines.g.mode": MODES, "lines.g.at": ["c", "d"]}),
    "moved": (lambda n: f"move {'dc'[n % 2]} g", {"lines.g.at": ["c", "d"]}),
    "left out": (lambda n: f"modify f h mode={MODES[0]}", {}),
    "refused": (lambda n: "modify c b mode=Inactive", {}),
}


@dataclass
class Trial:
    """What was drawn, the shape that it makes, and how bad that is."""

    drawn: dict
    shape: Shape
    score: float = 0.0


def drawn_levels(chance):
    """Up to three levels of up to four components each, no component in two."""
    paths = chance.sample([*TURNS], 12)
    return [[paths.pop() for _ in range(chance.randint(1, 4))] for _ in range(chance.randint(0, 3))]


def drawn_turn(chance, path):
    """What a component has: mostly its first value, and so nothing."""
    return chance.choice(TURNS[path]) if chance.random() < 0.35 else None


def parameters():
    """How each parameter is drawn."""
    found = {path: lambda chance, path=path: drawn_turn(chance, path) for path in TURNS}
    found |= {name: drawn_levels for name in ("refused", "executed", "sent")}
    found |= {"is parted alike": lambda chance: chance.random() < 0.5, "is far": lambda chance: chance.random() < 0.3}
    found |= {"is unmarked": lambda chance: chance.random() < 0.2}
    found |= {"is at rest": lambda chance: chance.random() < 0.2, "commands": lambda chance: chance.choice([*COMMANDS])}
    found |= {"count": lambda chance: chance.choice([1, 4, 16]), "wide": lambda chance: chance.choice([1, 2, 8])}
    found |= {"narrow": lambda chance: chance.choice([0, 0, 16, 150])}
    return found | {"states": lambda chance: chance.choice([1, 2])}


@functools.cache
def known():
    """What would be drawn for the shapes that the bench measures, of those that can be."""
    found = []
    for shape, _ in vain_checks.shapes():
        kinds = [kind for kind, (make, _) in COMMANDS.items() if [make(number) for number in range(len(shape.commands))] == shape.commands]
        if kinds and type(shape) in (Shape, Resting) and set(shape.turned) <= set(TURNS):
            own = {name: getattr(shape, name) for name in ("refused", "executed", "sent", "wide", "narrow", "states")}
            how = {"is parted alike": shape.refused == shape.executed, "is far": shape.is_far, "is unmarked": not shape.are_marked}
            how |= {"is at rest": isinstance(shape, Resting), "commands": kinds[0], "count": len(shape.commands)}
            found.append({**{path: shape.turned.get(path) for path in TURNS}, **own, **how})
    return found


def shape_of(drawn):
    """The shape of what was drawn."""
    make, needed = COMMANDS[drawn["commands"]]
    turned = {path: drawn[path] for path in TURNS if drawn[path]} | needed
    levels = {name: [kept for level in drawn[name] if (kept := [path for path in level if path in turned])] for name in ("refused", "executed", "sent")}
    executed = levels["refused"] if drawn["is parted alike"] else levels["executed"]
    commands = [make(number) for number in range(drawn["count"])]
    kind = Resting if drawn["is at rest"] else Shape
    how = {name: drawn[name] for name in ("wide", "narrow", "states")} | {"is_far": drawn["is far"], "are_marked": not drawn["is unmarked"]}
    return kind("drawn at random", turned, levels["refused"], executed, levels["sent"], commands, **how)


def size_of(shape):
    """How many numbers the entries have together; no number where that is too large to be tried."""
    counts = [len(list(itertools.islice(vain_checks.parts(shape.space(), levels), 257))) for levels in (shape.refused, shape.executed, shape.sent)]
    if max(counts) > 256 or not shape.fits():
        return None
    return shape.states * sum(vain_checks.numbers_of(*each) for each in [*shape.of_state()])


def next_drawn(chance, current):
    """What differs from what was drawn in one parameter; or is drawn anew, or known."""
    every = parameters()
    if not current and chance.random() < 0.5:
        return chance.choice(known())
    names = [chance.choice([*every])] if current else [*every]
    return {**(current.drawn if current else {}), **{name: every[name](chance) for name in names}}


def next_trial(chance, current, most):
    """A trial that differs from another one in one parameter, or a new one, whose entries have so many numbers at most."""
    while True:
        drawn = next_drawn(chance, current)
        shape = shape_of(drawn)
        if (size := size_of(shape)) and size <= most and (not current or drawn != current.drawn):
            return Trial(drawn, shape)


def limited():
    """Ends a program that takes too much of a processor."""
    resource.setrlimit(resource.RLIMIT_CPU, (LONGEST, LONGEST + 1))


def timed(command, path=None):
    """The processor time of a check, its status and line, and what it says besides; nothing where it takes too long."""
    before = resource.getrusage(resource.RUSAGE_CHILDREN)
    with open(path or "/dev/null", "rb") as text:
        words = [str(word) for word in command]
        result = subprocess.run(words, stdin=text, capture_output=True, text=True, preexec_fn=limited, check=False)
    after = resource.getrusage(resource.RUSAGE_CHILDREN)
    if result.returncode in (-signal.SIGXCPU, -signal.SIGKILL):
        return None
    return after.ru_utime - before.ru_utime + after.ru_stime - before.ru_stime, (result.returncode, result.stdout.strip()), result.stderr


def written(trial, name):
    """Writes a trial's input where it stays, with what was drawn beside it, and says where."""
    OUT.mkdir(parents=True, exist_ok=True)
    path = OUT / f"{name}.in"
    path.write_text(f"{trial.shape.script()}%%\n{trial.shape.certificate()}")
    path.with_suffix(".parameters").write_text(json.dumps(trial.drawn, indent=1) + "\n")
    return path


def judge(plain, folder, trial):
    """How much more processor time the walk takes than the plain checker's. Ends the search where their lines differ."""
    each = check_costs.Input(folder, "trial", trial.shape.script(), trial.shape.certificate())
    beside, reading, whole = timed([plain, each.flat]), timed([checks.PROGRAM, "check"], each.read), timed([checks.PROGRAM, "check"], each.whole)
    if not beside or not reading:
        return
    if whole and whole[1] != beside[1]:
        raise SystemExit(f"the programs differ, {whole[1]} and {beside[1]}: {written(trial, 'differs')}")
    walk = whole[0] - reading[0] if whole else LONGEST
    trial.score = (max(walk, 0) + ROUGH) / (float(beside[2].split()[1]) + ROUGH)


def told(shape):
    """A shape by what makes it: each level with what of it differs, and the first two commands, which the others repeat or vary."""
    turned = ", ".join(f"{path} {'|'.join(values)}" for path, values in shape.turned.items())
    parted = "; ".join(f"{name} by {getattr(shape, name)}" for name in ("refused", "executed", "sent"))
    counts = f"{len(shape.commands)} commands as {shape.commands[:2]}, wide {shape.wide}, narrow {shape.narrow}, states {shape.states}"
    how = f"{'far' if shape.is_far else 'near'}, {'all' if shape.are_marked else 'no'} lines marked"
    return f"{type(shape).__name__} of {turned}; {parted}; {counts}, {how}"


def climb(plain, folder, seed, minutes):
    """The worst trials of so many minutes, the worst first. From one that is bad it goes on by one parameter; where none is worse it begins anew."""
    chance, begun, found, current, vain, count = random.Random(seed), time.monotonic(), [], None, 0, 0
    while (gone := (time.monotonic() - begun) / (60 * minutes)) < 1:
        trial = next_trial(chance, current, FIRST_NUMBERS + int(gone * (MOST_NUMBERS - FIRST_NUMBERS)))
        judge(plain, folder, trial)
        count += 1
        if not found or trial.score > found[0].score:
            print(f"  trial {count}: {trial.score:.1f} times the processor time", flush=True)
        if not current or trial.score > current.score:
            current, vain = trial, 0
            found = sorted([*found, trial], key=lambda each: -each.score)[: 4 * KEPT]
        elif (vain := vain + 1) >= PATIENCE:
            current, vain = None, 0
    print(f"seed {seed}: {count} trials in {minutes} minutes")
    return found


def by_instructions(plain, folder, trial):
    """The walk of a trial, by instructions."""
    each = check_costs.Input(folder, "trial", trial.shape.script(), trial.shape.certificate())
    seconds = measuring.used(each.whole, checks.PROGRAM, "check", times=1, wanted=adversary.DECIDED)[0]
    return adversary.Walk(told(trial.shape), *adversary.walk_of(plain, each), 3, seconds)


def search(seed=1, minutes=10):
    """Searches for so many minutes, and tells the worst that it found."""
    if not measuring.has_valgrind():
        return
    with tempfile.TemporaryDirectory() as folder:
        if not (plain := check_costs.build(folder)):
            return
        kept = climb(plain, folder, seed, minutes)[:KEPT]
        walks = [by_instructions(plain, folder, trial) for trial in kept]
        worst = max(range(len(kept)), key=lambda place: walks[place].ratio())
        for walk in walks:
            print(f"{walk.name}, in millions of instructions")
            print(f"  walk {walk.own / 1e6:.1f}, C++ {walk.beside / 1e6:.1f}: ratio {walk.ratio():.2f}; {walk.seconds:.2f} s in all")
        print(f"worst ratio {walks[worst].ratio():.2f}: {written(kept[worst], f'worst-{seed}')}")
