"""What a check costs: its reading and its walk apart, beside a plain checker in C++ and beside the libraries that read TOML and JSON alone, in instructions and
in processor time; how both grow with points, entries and states; and the slowest inputs within the limits."""
import json
import shutil
import subprocess
import tempfile
from contextlib import contextmanager
from pathlib import Path

from shared import checks, flat, measuring, scripts, slow_checks

TOP = Path(__file__).resolve().parents[2]
SOURCE = TOP / "tests/plain_checker.cpp"
LAYERS = TOP / "crates/test_rows/out/test_rows"
# The functions below which a script and a certificate are read, and the entries walked.
READING, WALK = "composition::verdict::read_documents", "closure::first_fault::check_run"


def stored():
    """Every input that the repository has: its name and its bytes."""
    for path in sorted((TOP / "tests/cases").glob("*.in")):
        yield path.relative_to(TOP), path.read_bytes()
    for script in sorted([*TOP.glob("examples/**/script.toml"), *TOP.glob("gallery/**/script.toml")]):
        certificate = script.with_name("certificate.json")
        if certificate.exists():
            yield script.parent.relative_to(TOP), script.read_bytes() + b"%%\n" + certificate.read_bytes()


def build(folder):
    """The plain checker, built here; None where there is no compiler."""
    if not shutil.which("g++"):
        print("left out, since there is no g++: what is compared with a plain checker")
        return None
    program = Path(folder) / "plain_checker"
    subprocess.run(["g++", "-std=c++20", "-O3", "-o", program, SOURCE], check=True)
    return program


def agreements(plain, folder, program, inputs):
    """Of each input that is read: its name, and whether the plain checker gives the program's line and status."""
    written = Path(folder) / "flat"
    for name, text in inputs:
        own = subprocess.run([program, "check"], input=text, stdout=subprocess.PIPE, check=False)
        if own.returncode in (0, 1):
            written.write_text(flat.text(text.decode()))
            beside = subprocess.run([plain, written], stdout=subprocess.PIPE, stderr=subprocess.DEVNULL, check=False)
            yield name, (own.returncode, own.stdout) == (beside.returncode, beside.stdout)


class Input:
    """An input in files: whole, flat, its script and its certificate alone, and with the opening in no entry, so that it is read and answered at once."""

    def __init__(self, folder, name, script, certificate):
        self.name, self.script, self.certificate = name, Path(folder) / "script", Path(folder) / "certificate"
        self.whole, self.flat, self.read = Path(folder) / "whole", Path(folder) / "flat", Path(folder) / "read"
        text = f"{script}%%\n{certificate}"
        self.script.write_text(script)
        self.certificate.write_text(certificate)
        self.whole.write_text(text)
        self.flat.write_text(flat.text(text))
        self.read.write_text(f"{script}%%\n{without_opening(script, certificate)}")
        self.bytes = len(text)


def without_opening(script, certificate):
    """The certificate in which the configuration that a call opens in is in no entry."""
    document, start = json.loads(certificate), scripts.read(script.encode())["start"]
    for entry in document["entries"]:
        if entry["state"] == start:
            entry["link"] = [link for link in entry["link"] if link != "rest"] or ["fault"]
    return json.dumps(document, separators=(",", ":")) + "\n"


def compact(certificate):
    """A certificate without blanks, as a tool writes one."""
    return json.dumps(json.loads(certificate), separators=(",", ":")) + "\n"


def named_certificate(states, entries):
    """The entries of `checks.certificate`, of which those of one configuration name each component of each line."""
    document = json.loads(checks.certificate(states, entries))
    own = {"at": ["-"], "mode": ["Inactive"], "events": ["armed"], "plays": ["no"]}
    for entry in document["entries"]:
        entry.setdefault("lines", {line: own for line in checks.LINES})
    return json.dumps(document)


def inputs(size):
    """Inputs of one kind each, by so many states; the last one is the repository's."""
    yield "four lines, four ephemerals and cuts", checks.rooms_script(size), checks.rooms_certificate(size)
    yield "256 short entries a state", checks.script(2 * size, 2), checks.certificate(2 * size, 256)
    yield "256 entries a state that name each line", checks.script(2 * size, 2), named_certificate(2 * size, 256)
    yield "wide entries with few steps", checks.script(size, 2, 8), checks.certificate(size, 1, 8, ("no", "may"))
    few = slow_checks.Few()
    yield "entries looked at one by one, with many steps", few.script(size // 4), few.certificate(size // 4, 60)
    folder = max(TOP.glob("gallery/*/certificate.json"), key=lambda path: path.stat().st_size).parent
    yield str(folder.relative_to(TOP)), (folder / "script.toml").read_text(), (folder / "certificate.json").read_text()


@contextmanager
def prepared(size):
    """The plain checker, or None, and the inputs in files, one after the other."""
    with tempfile.TemporaryDirectory() as folder:
        plain = build(folder)
        yield plain, (Input(folder, name, script, compact(certificate)) for name, script, certificate in inputs(size))


def check_agreement():
    """How many of the inputs that the repository has, and that are read, the plain checker answers with the line of `mgcall check`."""
    with tempfile.TemporaryDirectory() as folder:
        if plain := build(folder):
            found = dict(agreements(plain, folder, checks.PROGRAM, stored()))
            others = [str(name) for name, agrees in found.items() if not agrees]
            print(f"the plain checker gives the line of {len(found) - len(others)} of {len(found)} inputs", *others)


def has_documents():
    """Whether the layers of the libraries alone are there."""
    with tempfile.NamedTemporaryFile("w") as empty:
        empty.write("{}")
        empty.flush()
        with open(empty.name, "rb") as text:
            return not subprocess.run([LAYERS, "json"], stdin=text, stdout=subprocess.DEVNULL, check=False).returncode


def ratio(own, beside):
    return f"ratio {own / beside:.2f}" if beside else "nothing beside it"


def libraries(each, cost):
    """What the libraries alone take for the two documents, by such a cost of a command and a path; 0 where the layers aren't there."""
    if not has_documents():
        return 0
    return cost([LAYERS, "toml"], each.script) + cost([LAYERS, "json"], each.certificate)


def check_by_instructions():
    """The instructions below the function that reads, beside the libraries alone, and below the one that walks, beside the plain checker without its reading;
    and what is left, the input and letting go. The process that asks a library has some 150,000 of its own."""
    if not measuring.has_valgrind():
        return
    with prepared(4) as (plain, each_input):
        for each in each_input:
            found = measuring.inclusive([checks.PROGRAM, "check"], each.whole)
            reading, walk = found.get(READING, 0), found.get(WALK, 0)
            beside = measuring.counted([plain, each.flat]) - measuring.counted([plain, each.flat, "read"]) if plain else 0
            alone = libraries(each, measuring.counted)
            print(f"{each.name}, {each.bytes} bytes, in millions of instructions")
            print(f"  walk {walk / 1e6:.1f}, C++ {beside / 1e6:.1f}: {ratio(walk, beside)}")
            besides = found["main"] - reading - walk
            print(f"  reading {reading / 1e6:.1f}, the libraries alone {alone / 1e6:.1f}: {ratio(reading, alone)}; besides {besides / 1e6:.1f}")


def seconds_of(command, path):
    return measuring.used(path, *command)[0]


def plain_seconds(plain, each):
    """The best processor time of the plain checker's walk, as it tells it itself."""
    told = [subprocess.run([plain, each.flat], stdout=subprocess.DEVNULL, stderr=subprocess.PIPE, text=True, check=True).stderr for _ in range(3)]
    return min(float(line.split()[1]) for line in told)


def seconds(each):
    """The best processor time of an input's check, and of reading it alone."""
    return measuring.used(each.whole, checks.PROGRAM, "check")[0], measuring.used(each.read, checks.PROGRAM, "check", wanted=(1,))[0]


def check_by_time():
    """The same in processor time, of larger inputs: reading is a check of the same input that is answered at once."""
    with prepared(32) as (plain, each_input):
        for each in each_input:
            whole, reading = seconds(each)
            walk, beside = max(whole - reading, 0), plain_seconds(plain, each) if plain else 0
            alone = libraries(each, seconds_of)
            print(f"{each.name}, {each.bytes} bytes, in milliseconds of processor time")
            print(f"  walk {walk * 1e3:.1f}, C++ {beside * 1e3:.1f}: {ratio(walk, beside)}")
            print(f"  reading {reading * 1e3:.1f}, the libraries alone {alone * 1e3:.1f}: {ratio(reading, alone)}")


def size_pairs():
    """What is doubled: its name, and the half and the whole as script and certificate."""
    placed, few = slow_checks.Placed(), slow_checks.Few()
    yield "points that differ in places, 128 and 256 entries", *((placed.script(1), placed.certificate(1, wide)) for wide in (116, 244))
    yield "points that are looked at one by one, 32 states of 122 and of 244 entries", *((few.script(32), few.certificate(32, wide)) for wide in (122, 244))
    yield "entries, 64 states of 128 and of 256", *((checks.script(64, 2), checks.certificate(64, count)) for count in (128, 256))
    yield "states, 32 and 64 of 16 commands", *((checks.script(count, 16), checks.certificate(count, 1)) for count in (32, 64))
    yield "states, 16 and 32 with ephemerals and cuts", *((checks.rooms_script(count), checks.rooms_certificate(count)) for count in (16, 32))


def check_by_size():
    """The processor time of a check with its half and its whole of points, entries and states, and the ratio, which is to be at most 2.2."""
    for name, *pair in size_pairs():
        taken = [seconds_of_whole(script, certificate) for script, certificate in pair]
        print(f"{name}: {taken[0]:.3f} s and {taken[1]:.3f} s, ratio {taken[1] / taken[0]:.2f}")


def slow_seconds(plain, folder, script, certificate):
    """The processor time of a slow input's check, and that of the plain checker's walk, or 0."""
    each = Input(folder, "", script, certificate)
    return measuring.used(each.whole, checks.PROGRAM, "check")[0], plain_seconds(plain, each) if plain else 0


def spelt(seconds_taken):
    return f"{seconds_taken:.0f} seconds" if seconds_taken < 120 else f"{seconds_taken / 60:.0f} minutes"


def seconds_of_whole(script, certificate):
    """The processor time of the check of an input, reading included."""
    with tempfile.NamedTemporaryFile("w") as text:
        text.write(f"{script}%%\n{certificate}")
        text.flush()
        return measuring.used(text.name, checks.PROGRAM, "check")[0]


class Slow:
    """A slow input whose points differ in settings, and whose requests are sent. Near: the entries of results come first among those of their state; far: they
    come last, and the plain checker asks all before them. Parted: what a step makes of an entry lies in four."""

    def __init__(self, lines, has_contexts, is_far, is_parted=False):
        self.lines, self.has_contexts, self.is_far, self.is_parted = lines, has_contexts, is_far, is_parted
        self.most = slow_checks.most(is_parted)
        self.points = self.most * slow_checks.points_of(lines)

    def __str__(self):
        where = f"{self.lines} lines {'with' if self.has_contexts else 'without'} contexts, {'far' if self.is_far else 'near'}"
        return f"{where}, results in parts" if self.is_parted else where

    def script(self, states):
        return slow_checks.script(self.lines, self.has_contexts, states)

    def certificate(self, states, wide):
        return slow_checks.certificate(self.lines, self.has_contexts, states, wide, self.is_far, self.is_parted)


class SlowAtRest:
    """A slow input whose points differ in settings, and whose calls are at rest."""

    def __init__(self, lines):
        self.lines, self.most = lines, slow_checks.MOST_RESTING
        self.points = self.most * slow_checks.resting_points(lines)

    def __str__(self):
        return f"{self.lines} lines at rest"

    def script(self, states):
        return slow_checks.resting_script(self.lines, states)

    def certificate(self, states, wide):
        return slow_checks.resting_certificate(self.lines, states, wide)


def slow_inputs():
    """Those whose points differ in settings alone: of each shape one near and one far, results in parts of each number of lines, and calls at rest."""
    for lines in slow_checks.SHAPES:
        for has_contexts in (False, True):
            yield Slow(lines, has_contexts, False)
            yield Slow(lines, has_contexts, True)
        yield Slow(lines, False, False, True)
        yield SlowAtRest(lines)


def scaled(plain, folder, script, certificates, more, most):
    """The time of the most entries that the limits allow, from the difference of two inputs of a state: own, and the plain checker's."""
    few, many = (slow_seconds(plain, folder, script, certificate) for certificate in certificates)
    return [(there - here) / more * most for here, there in zip(few, many)]


def placed_inputs():
    """Slow inputs whose points differ in places: the kind, the link, and what is said of both."""
    yield slow_checks.Placed(), "rest", "at rest"
    for kind in (each() for each in slow_checks.SENT):
        yield kind, "sent", "request sent"


def slowest():
    """The slowest inputs within the limits. Those whose points differ in settings alone are checked whole; those whose points differ in places, and the plain
    checker's, are scaled from two inputs of a state, since a walk is linear in entries that are alike."""
    with tempfile.TemporaryDirectory() as folder:
        plain = build(folder)
        for slow in slow_inputs():
            beside = scaled(plain, folder, slow.script(1), [slow.certificate(1, wide) for wide in (8, 16)], 8, slow.most)[1]
            own = seconds_of_whole(slow.script(slow_checks.STATES), slow.certificate(slow_checks.STATES, slow.most // slow_checks.STATES))
            print(f"{slow}: {slow.points:,} points, {own:.2f} s, whole; C++ {spelt(beside)}, scaled")
        for kind, link, said in placed_inputs():
            certificates = [kind.certificate(1, wide, link) for wide in (4, 36)]
            own, beside = scaled(plain, folder, kind.script(1), certificates, 32, kind.most())
            print(f"{kind.name}, {said}: {kind.most() * kind.points():,} points, {spelt(own)}, C++ {spelt(beside)}, both scaled")


PARTS = (check_agreement, check_by_instructions, check_by_time, check_by_size, slowest)
