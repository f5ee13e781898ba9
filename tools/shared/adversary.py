"""What a check takes of inputs that somebody would send who knows how it goes about them: of `vain_checks` beside the plain checker in C++, by instructions;
of the shortest entries that there may be, and of scripts that are slow to read, as they double; and of two pieces, of which the first is broken at once."""
import json
import subprocess
import tempfile
from dataclasses import dataclass
from pathlib import Path

from shared import check_costs, checks, measuring, slow_scripts, vain_checks
from shared.certificates import ENTRIES

MILLION, MEBIBYTE = 1e6, 2**20
# The status of a check that says that an obligation is broken, those of a check that came to a decision, and each that it may have.
BROKEN, DECIDED, STATUSES = (1,), (0, 1), range(5)
# A check that takes less, in seconds, is within the aims whatever its ratio.
SHORT = 0.05
# How much reading may grow where its input doubles; and the memory that a check may have: so many times its input, and so much more.
DOUBLED, TIMES_INPUT, BESIDES = 2.2, 10, 64 * MEBIBYTE


@dataclass
class Walk:
    """The instructions of a walk, beside those of the plain checker; how often those it may take, and the seconds of the whole check."""

    name: str
    own: int
    beside: int
    most: float
    seconds: float

    def ratio(self):
        return self.own / max(self.beside, 1)

    def is_within(self):
        return self.ratio() <= self.most or self.seconds < SHORT


def answer(command, path=None):
    """The status and the line of a check."""
    with open(path or "/dev/null", "rb") as text:
        result = subprocess.run([str(word) for word in command], stdin=text, stdout=subprocess.PIPE, stderr=subprocess.DEVNULL, check=False)
    return result.returncode, result.stdout.decode().strip()


def room(size):
    """The memory that a check of so many bytes may have."""
    return TIMES_INPUT * size + BESIDES


def told_memory(memory, size):
    return f"{memory / MEBIBYTE:.0f} MiB, aim at most {room(size) / MEBIBYTE:.0f}"


def agreed(plain, each, status):
    """The line that both programs give of an input; ends the bench where they differ, or another status was wanted."""
    own, beside = answer([checks.PROGRAM, "check"], each.whole), answer([plain, each.flat])
    if own != beside or own[0] != status:
        raise SystemExit(f"{each.name}: status {status} was wanted, not {own} and {beside} of the plain checker")
    return own[1]


def walk_of(plain, each):
    """The instructions of the walk over an input and of the plain checker's, each without reading."""
    own = measuring.counted([checks.PROGRAM, "check"], each.whole, DECIDED) - measuring.counted([checks.PROGRAM, "check"], each.read, BROKEN)
    return own, measuring.counted([plain, each.flat], None, DECIDED) - measuring.counted([plain, each.flat, "read"])


def walk_over(plain, folder, shape, most):
    """Measures the walk over a shape, and tells it."""
    each = check_costs.Input(folder, shape.name, shape.script(), shape.certificate())
    points = int(agreed(plain, each, 0).split()[3])
    seconds = measuring.used(each.whole, checks.PROGRAM, "check", times=1)[0]
    memory = measuring.most_memory([checks.PROGRAM, "check"], each.whole)
    found = Walk(shape.name, *walk_of(plain, each), most, seconds)
    print(f"{found.name}, {points:,} points, in millions of instructions")
    print(
        f"  walk {found.own / MILLION:.1f}, C++ {found.beside / MILLION:.1f}: ratio {found.ratio():.2f}, aim at most {most}; {seconds:.2f} s in all; "
        f"{told_memory(memory, each.bytes)}",
        flush=True,
    )
    return found


def walks(plain, folder):
    """The walks over all shapes, and at the end the one that is worst beside its aim."""
    found = [walk_over(plain, folder, shape, most) for shape, most in vain_checks.shapes()]
    worst = max(found, key=lambda walk: (not walk.is_within(), walk.ratio() / walk.most))
    missed = sum(not walk.is_within() for walk in found)
    print(f"worst ratio {worst.ratio():.2f}, aim at most {worst.most}: {worst.name}; {missed} of {len(found)} miss their aim and take {SHORT} s or more")


def shortest(folder, count):
    """So many of the shortest entries that there may be, of a full script; in each state one more has what they lead to."""
    names = [f"s{number}" for number in range(count // (ENTRIES - 1) + 1)]
    entries = [{"state": name, "link": ["ok", "rest"]} for name in names]
    entries += [{"state": names[number // (ENTRIES - 1)], "link": ["sent"]} for number in range(count)]
    script, certificate = vain_checks.script_of([(name, []) for name in names]), vain_checks.certificate_of(entries)
    return check_costs.Input(folder, f"{count:,} shortest entries of a full script", script, certificate)


def readings(plain, folder):
    """What reading the shortest entries takes, beside the libraries alone; the whole check, beside the plain checker that reads whole numbers; and how
    reading grows."""
    taken = []
    for count in (2_048, 4_096):
        each = shortest(folder, count)
        agreed(plain, each, 0)
        reading, whole = (measuring.counted([checks.PROGRAM, "check"], path, DECIDED) for path in (each.read, each.whole))
        alone, beside = check_costs.libraries(each, measuring.counted), measuring.counted([plain, each.flat])
        memory = measuring.most_memory([checks.PROGRAM, "check"], each.whole)
        print(f"{each.name}, {each.bytes} bytes, in millions of instructions")
        print(f"  reading {reading / MILLION:.1f}, the libraries alone {alone / MILLION:.1f}: {check_costs.ratio(reading, alone)}")
        print(f"  all {whole / MILLION:.1f}, C++ {beside / MILLION:.1f}: {check_costs.ratio(whole, beside)}; {told_memory(memory, each.bytes)}", flush=True)
        taken.append(reading)
    print(f"  reading grows by {taken[1] / taken[0]:.2f} where entries double, aim at most {DOUBLED}")


def slow_scripts_doubled(folder):
    """The instructions and the memory of scripts that are slow to read, with half the bytes and with all."""
    for make in (slow_scripts.colliding_names, slow_scripts.long_section_name, slow_scripts.deep_headers):
        taken, path = [], Path(folder) / "slow"
        for size in (200_000, 400_000):
            path.write_bytes(make(size) + b'\n%%\n{"version":2,"entries":[]}\n')
            instructions = measuring.counted([checks.PROGRAM, "check"], path, STATUSES)
            seconds = measuring.used(path, checks.PROGRAM, "check", times=1, wanted=STATUSES)[0]
            memory = told_memory(measuring.most_memory([checks.PROGRAM, "check"], path), path.stat().st_size)
            print(f"a script of {size:,} bytes, {make.__name__}: {instructions / MILLION:.1f} million instructions, {seconds:.3f} s, {memory}", flush=True)
            taken.append(instructions)
        print(f"  ratio {taken[1] / taken[0]:.2f}, aim at most {DOUBLED}")


def broken_at_once(folder):
    """A check in one piece and in two whose first entry is broken: what the second piece takes in vain."""
    shape = max((shape for shape, _ in vain_checks.shapes()), key=lambda shape: shape.states)
    document = json.loads(shape.certificate())
    document["entries"].insert(0, {"state": "s0", "link": ["sent"]})
    path = Path(folder) / "broken"
    path.write_text(f"{shape.script()}%%\n{json.dumps(document)}\n")
    if not (told := answer([checks.PROGRAM, "check"], path)[1]).startswith("no K2 entry=0 point=0"):
        raise SystemExit(f"a no of the first entry was wanted, not {told}")
    one, two = (measuring.counted([checks.PROGRAM, "check", "--pieces", pieces], path, BROKEN) for pieces in (1, 2))
    print(f"the first entry is broken, in millions of instructions: one piece {one / MILLION:.1f}, two pieces {two / MILLION:.1f}: ratio {two / one:.2f}")


def adversary():
    """All of these."""
    if not measuring.has_valgrind():
        return
    with tempfile.TemporaryDirectory() as folder:
        if plain := check_costs.build(folder):
            walks(plain, folder)
            readings(plain, folder)
        broken_at_once(folder)
        slow_scripts_doubled(folder)
