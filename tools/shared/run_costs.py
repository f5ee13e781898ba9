"""What a run costs beside a tuned runner in C++, as somebody writes it who knows the domain and the machine (`tests/tuned_runner.cpp`): whole processes, by
instructions and by processor time, on inputs that are made here; an event with many calls beside one with few; and four workers beside four runs. The tuned
runner runs each call alone once more and compares, since it has no law that tells as much of each line; beside that it leaves this out. A program stands with
the words behind those of a run."""
import shutil
import subprocess
import tempfile
from contextlib import contextmanager
from pathlib import Path

from shared import checks, measuring, run_inputs

SOURCE = Path(__file__).resolve().parents[2] / "tests/tuned_runner.cpp"
# How a run on no worker ends: all is read and checked, and nothing is run.
BAD_WORKERS = 5
VERIFIES = "--verify"
# How many steps of each call are enough to see what an event fetches.
FEW_STEPS = 45
# The parts of a run, by the functions that stand for them.
OF_A_RUN = {
    "the library reads the plan": ["toml::de::table_from_slice"],
    "its tree is let go": ["plans::toml++value++Value+Destruct::drop"],
    "requests on two sets of connections": [
        "contexts::board::Board::refusal",
        "contexts::board::Board::carry_out",
        "requests::connections::Connections::describe",
        "requests::items::item_at",
    ],
    "the agent of the call that is handed in": ["agent::logged::Logged::step"],
    "opening": ["shards::opening::open_all"],
    "the allocator, for all of these": ["rattle_alloc", "rattle_dealloc", "rattle_realloc"],
}
NAMES = "mgcall run", "tuned runner with each call alone once more", "tuned runner"


def build(folder):
    """The tuned runner, built here and without libraries to be found when it starts; None where there is no compiler."""
    if not shutil.which("g++"):
        print("left out, since there is no g++: what is compared with a tuned runner")
        return None
    subprocess.run(["g++", "-std=c++17", "-O3", "-pthread", "-c", "-o", compiled(folder), SOURCE], check=True)
    return link(folder, "tuned_runner")


def compiled(folder):
    """Where the tuned runner stands before it is linked."""
    return Path(folder) / "tuned_runner.o"


def link(folder, name, *words):
    """The tuned runner that was built in this folder, linked with these words."""
    program = Path(folder) / name
    subprocess.run(["g++", "-static", "-pthread", *words, "-o", program, compiled(folder)], check=True)
    return program


@contextmanager
def prepared():
    """A folder, and the programs; of these only the first where the tuned one can't be built."""
    with tempfile.TemporaryDirectory() as folder:
        tuned = build(folder)
        yield Path(folder), [(checks.PROGRAM,), *([(tuned, VERIFIES), (tuned,)] if tuned else [])]


def write(folder, kind, calls, shards=1):
    """A file with a plan of so many calls, and its events."""
    text, events = run_inputs.plan(kind, calls, shards)
    path = folder / f"{kind.name}_{calls}_{shards}"
    path.write_text(text)
    return path, events


def run_of(program, workers):
    """The words of a run, and the status that it ends with."""
    first, *more = program
    return [first, "run", "--workers", workers, *more], BAD_WORKERS if workers == 0 else 0


def instructions(program, path, workers):
    command, status = run_of(program, workers)
    return measuring.counted(command, path, (status,))


def seconds(program, path, workers):
    """The processor time of a run."""
    (first, *words), status = run_of(program, workers)
    return measuring.used(path, first, *words, times=5, wanted=(status,))[0]


def beside(costs):
    """What an event costs with `mgcall run`, and beside it with the others, and how many times."""
    own, *others = costs
    told = " and ".join(f"{cost:.0f}, ratio {own / cost:.2f}" for cost in others)
    return f"{own:.0f} beside {told}" if told else f"{own:.0f}"


def tuned_runs():
    """Whole runs on one worker beside the tuned runner, with each call alone once more and without: instructions and processor time an event, with reading and
    check and without."""
    with prepared() as (folder, programs):
        for kind, calls in run_inputs.kinds():
            path, events = write(folder, kind, calls)
            print(f"{kind.name}, {calls} calls, {events} events, `mgcall run` beside the tuned runner with each call alone once more, and without")
            measures = [("nanoseconds of processor time", seconds, 1e9), *([("instructions", instructions, 1)] if measuring.has_valgrind() else [])]
            for name, cost, unit in measures:
                whole, read = ([cost(program, path, workers) * unit / events for program in programs] for workers in (1, 0))
                print(f"  {name} an event: {beside(whole)}; without reading {beside([each - less for each, less in zip(whole, read)])}")


def run_parts():
    """Of the instructions of a whole run of `mgcall run` on one worker, how many in a hundred the parts take that have a name of their own, each with what it
    calls, so that one may be within another."""
    if not measuring.has_valgrind():
        return
    with tempfile.TemporaryDirectory() as folder:
        for kind, calls in run_inputs.kinds():
            path, events = write(Path(folder), kind, calls)
            found = measuring.inclusive(run_of((checks.PROGRAM,), 1)[0], path)
            shares = ", ".join(f"{said} {100 * sum(found.get(name, 0) for name in names) / found['main']:.1f}" for said, names in OF_A_RUN.items())
            print(f"{kind.name}, {found['main'] / events:.0f} instructions an event; in a hundred: {shares}")


def tuned_sizes():
    """The processor time of an event with 10,000 calls and with 100, in one shard on one worker, without reading."""
    long = next(kind for kind, _ in run_inputs.kinds() if kind.name == "long")
    with prepared() as (folder, programs):
        each = {}
        for calls, steps in ((100, long.steps), (10_000, long.steps[:99])):
            path, events = write(folder, long._replace(steps=steps), calls)
            each[calls] = [(seconds(program, path, 1) - seconds(program, path, 0)) / events * 1e9 for program in programs]
            print(f"{calls} calls, {events} events: {beside(each[calls])} nanoseconds of processor time an event")
        print("  ratio of many calls to few " + " beside ".join(f"{many / few:.2f}" for few, many in zip(each[100], each[10_000])))


def tuned_fetches():
    """The lines of memory that an event fetches from past the last cache, with 10,000 calls and with 100 of as many steps, in one shard on one worker, without
    reading: what an event costs more where calls are many."""
    if not measuring.has_valgrind():
        return
    long = next(kind for kind, _ in run_inputs.kinds() if kind.name == "long")
    with prepared() as (folder, programs):
        for calls in (100, 10_000):
            path, events = write(folder, long._replace(steps=long.steps[:FEW_STEPS]), calls)
            each = [(fetches(program, path, 1) - fetches(program, path, 0)) / events for program in programs]
            print(f"{calls} calls, {events} events: lines fetched an event, `mgcall run` {each[0]:.1f}" + "".join(f" beside {one:.1f}" for one in each[1:]))


def fetches(program, path, workers):
    """The lines of memory that a run fetches."""
    command, status = run_of(program, workers)
    return measuring.fetched(command, path, (status,))


def clock(program, path, workers, times=1):
    """The best time by the clock of so many runs beside each other, without reading."""
    whole, read = (measuring.best([(*run_of(program, count), path)] * times)[0] for count in (workers, 0))
    return whole - read


def tuned_workers():
    """A run on four workers in four shards, beside four runs of a quarter each, by the clock and without reading."""
    long = next(kind for kind, _ in run_inputs.kinds() if kind.name == "long")
    with prepared() as (folder, programs):
        (whole, events), (quarter, _) = write(folder, long, 800, 4), write(folder, long, 200)
        for name, program in zip(NAMES, programs):
            one, apart = clock(program, whole, 4), clock(program, quarter, 1, 4)
            print(f"{name}, {events} events: four workers {one:.3f} s, four runs {apart:.3f} s; four workers reach {apart / one:.2f} of them")


PARTS = tuned_runs, run_parts, tuned_sizes, tuned_fetches, tuned_workers
